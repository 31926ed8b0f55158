// Pages in headless Chromium, native views and reflectors: node browser.mjs CROQUET FOLDER
//
// CROQUET is the program. What is made, the logs and two pictures among it, is in FOLDER. Each line is a check, and begins with `ok` or `BAD`.
import { mkdirSync } from "node:fs";
import { join } from "node:path";
import { Chromium } from "./chromium.mjs";
import { Native, fileServer, listening, proxyTo, sleep, top } from "./outside.mjs";

const [croquet, folder] = process.argv.slice(2);
const program = join(top, "examples/whiteboard.program");
const pong = join(top, "examples/pong.program");
const LINKS = 12;
const STROKES = 4000;
const ROUNDS = 5;
const strokes = "[...session.world().values()].filter(object => object.class === 'Stroke')";
let bad = 0;

function check(what, so) {
  console.log(`${so ? "ok  " : "BAD "} ${what}`);
  if (!so) bad++;
}

const wave = (down, up) => Array.from({ length: 60 }, (item, index) => [60 + 11 * index, Math.round(down + up * Math.sin(index / 6))]);
const hasStrokes = count => `window.session && ${strokes}.length === ${count}`;
const state = "document.getElementById('state').textContent";

// Each page notes its world at each thing that its link says.
const NOTES = "window.notes = []; session.on('moved', () => { const text = session.text(); notes.push({ seen: session.seen, time: session.time, digest: /digest (\\w+)/.exec(text)[1] }); }); true";

class Board {
  constructor(browser, site) {
    this.browser = browser;
    this.site = site;
  }

  async page(port, view, name = "whiteboard") {
    const number = view ? `&view=${view}` : "";
    const tab = await this.browser.open(`${this.site}/web/${name}.html?name=board&url=ws://127.0.0.1:${port}${number}`);
    await tab.until(`!!window.session || ${state} !== 'joining'`);
    return tab;
  }

  async noted(port, view, name) {
    const tab = await this.page(port, view, name);
    await tab.run(NOTES);
    return tab;
  }
}

// ---- one session

const SQUARE = 'publish "board" "draw" [500,60,700,60,700,200,500,200,500,60]\nsettle\n';

async function drawsTogether(board, native, proxy) {
  const first = await board.noted(native.port, 7), second = await board.noted(proxy, 8);
  const third = native.view(9);
  third.say(SQUARE);
  await first.drag("canvas", wave(130, 60));
  await second.drag("canvas", wave(300, -70));
  await first.drag("canvas", [[100, 400], [400, 380], [700, 420]]);
  for (const page of [first, second]) await page.until(hasStrokes(4));
  const worlds = await Promise.all([first, second].map(page => page.run("JSON.stringify([...session.world().values()])")));
  check("strokes of two pages and of a native view are on both pages, and the objects are the same", worlds[0] === worlds[1]);
  await sleep(1000);
  const feet = await Promise.all([first, second].map(page => page.run("document.getElementById('foot').textContent.split('\\n')[1]")));
  check(`both pages show: ${feet[0]}`, feet[0] === feet[1] && /: [0-9a-f]{64}$/.test(feet[0]));
  await first.picture(join(folder, "page7.png"));
  await second.picture(join(folder, "page8.png"));
  await second.run("document.getElementById('undo').click()");
  await first.until(hasStrokes(3));
  check("an undo takes back a stroke of its own view alone", await first.run(`${strokes}.every(stroke => stroke.fields.view !== 8)`));
  return { first, second, third };
}

async function isCut({ first, second }, proxy) {
  await second.run("session.publish('board', 'draw', [30, 30, 60, 60]); true");
  await second.drag("canvas", [[60, 30], [50, 40], [40, 50], [30, 60]], () => proxy.cut());
  await second.until(`${state} === 'here again'`);
  await second.run("session.settled()");
  await first.until(hasStrokes(5));
  check("a link that was cut in the midst of a stroke is made again, and nothing is lost or doubled", await second.run(`${strokes}.length`) === 5);
}

// The native view votes on the world that it has directly after an entry, which a page makes. The pages note theirs.
async function isVotedOn({ first, second, third }) {
  const entry = await first.run("session.seen") + 3;
  third.say(`vote ${entry}\nsettle\n`);
  await sleep(1000);
  await first.drag("canvas", wave(200, 20));
  await second.drag("canvas", wave(220, 20));
  await first.until(hasStrokes(7));
  await second.drag("canvas", wave(240, 20));
  for (const page of [first, second]) await page.until(hasStrokes(8));
  return entry;
}

async function joinsLate(board, { first }, port) {
  await first.run("session.snap()");
  const late = await board.page(port);
  await late.until(hasStrokes(8));
  check("a page that joins by a kept snapshot has all strokes", true);
  await late.run("window.isOld = true");
  await late.call("Page.reload");
  await late.until(`!window.isOld && ${hasStrokes(8)}`);
  check("loaded anew it takes another number and has all strokes", true);
  return late;
}

async function hasTwoTabs(board, { first }, port) {
  const double = await board.page(port, 7);
  const said = await double.run(state);
  await first.run("session.publish('board', 'draw', [1, 1, 2, 2]); true");
  await first.until(`${state}.startsWith('refused')`);
  check(`of two tabs with one number the first says: ${await first.run(state)}`, true);
  check(`the second says: ${said}`, said.startsWith("the reflector broke the rules, or this view's number was used before"));
}

function comparePages(notes) {
  const known = new Map();
  let same = 0;
  for (const note of notes.flat()) {
    const key = `${note.seen} ${note.time}`;
    if (known.has(key)) same++;
    if (known.has(key) && known.get(key) !== note.digest) check(`the pages differ at entry ${note.seen}, time ${note.time}`, false);
    known.set(key, note.digest);
  }
  check(`at ${same} places where two pages were, their digests are one`, same > 0);
}

function compareReplay(native, notes) {
  for (const list of notes) {
    const some = [list[Math.floor(list.length / 3)], list[Math.floor(list.length / 2)], list.at(-1)];
    check(`their digests are those of replay: ${some.map(note => note.digest.slice(0, 8))}`, some.every(note => native.replayed(note.time) === note.digest));
  }
}

function compareNative(native, notes, entry, { time, seq, digest }) {
  const [one, other] = notes.map(list => list.find(note => note.seen === entry));
  const digests = [one?.digest, other?.digest, native.voted(), native.replayed(one?.time)];
  check(`at entry ${entry} the two pages, the native view and replay have the digests ${digests.map(text => text?.slice(0, 8))}`, new Set(digests).size === 1 && one.time === other.time);
  check(`the native view has the digest of replay, as the pages have: entry ${seq}, ${digest.slice(0, 8)}`, native.replayed(time) === digest);
}

function lastLine(text) {
  const [, time, seq, digest] = /^view \d+ time (\d+) seq (\d+) digest (\w+)$/m.exec(text);
  return { time, seq: Number(seq), digest };
}

async function session(board, native) {
  const proxy = proxyTo(native.port), port = await listening(proxy.server);
  const pages = await drawsTogether(board, native, port);
  await isCut(pages, proxy);
  const entry = await isVotedOn(pages);
  const late = await joinsLate(board, pages, native.port);
  const last = lastLine(await pages.third.leave());
  const notes = [];
  for (const page of [pages.first, pages.second]) {
    await page.until(`notes.some(note => note.seen >= ${last.seq})`);
    notes.push(JSON.parse(await page.run("JSON.stringify(notes)")));
  }
  await hasTwoTabs(board, pages, native.port);
  for (const page of [pages.second, late]) await page.run("session.leave()").catch(() => {});
  proxy.server.close();
  return () => {
    comparePages(notes);
    compareReplay(native, notes);
    compareNative(native, notes, entry, last);
  };
}

// ---- a board with many strokes

function manyStrokes() {
  const points = number => [number * 7 % 800, number * 13 % 450, number * 11 % 800, number * 17 % 450];
  return Array.from({ length: STROKES }, (item, index) => `publish "board" "draw" [${points(index)}]\n`).join("") + "settle\n";
}

// A stroke comes sixty times a second, and each is taken back in the end, since a world has room for 95 more. How often the world is read and drawn
// meanwhile does not count, since two looks may share a frame. What counts are the frames in which something was painted: the rates of some rounds, the best one first.
const DRAWS = `(async () => {
  const ask = window.requestAnimationFrame.bind(window), pause = time => new Promise(done => setTimeout(done, time)), rates = [];
  while (rates.length < ${ROUNDS}) {
    const begun = performance.now();
    const frames = new Set();
    window.requestAnimationFrame = work => ask(time => { frames.add(time); work(time); });
    for (let count = 0; count < 90; count++) {
      session.publish('board', 'draw', [1, 2, 3 * count, 400]);
      await pause(16);
    }
    rates.push(Math.round(frames.size * 1000 / (performance.now() - begun)));
    window.requestAnimationFrame = ask;
    for (let count = 0; count < 90; count++) session.publish('board', 'undo');
    await session.settled();
    await pause(1000);
  }
  return rates.sort((one, other) => other - one);
})()`;

async function drawsMany(board, native) {
  const many = native.view(9);
  many.say(manyStrokes());
  await many.leave();
  const page = await board.page(native.port, 7);
  await page.until(hasStrokes(STROKES));
  const rates = await page.run(DRAWS);
  check(`a board of ${STROKES} strokes is drawn ${rates} times a second, and the middle one counts`, rates[ROUNDS >> 1] >= 30);
  await page.run("session.publish('board', 'draw', [1, 2, 300, 400]); true");
  const fresh = await board.page(native.port, 8);
  for (const one of [page, fresh]) await one.until(hasStrokes(STROKES + 1));
  await sleep(1000);
  const drawn = await Promise.all([page, fresh].map(one => one.run("document.getElementById('canvas').toDataURL()")));
  check("a page that has drawn only what was new has the picture of one that has drawn all", drawn[0] === drawn[1]);
  await page.picture(join(folder, "many.png"));
  for (const one of [page, fresh]) await one.run("session.leave()");
}

// ---- a game

const points = "document.getElementById('foot').textContent";

// Each holds the paddle where the ball is not, so points come.
async function plays(board, native) {
  const left = await board.noted(native.port, 7, "pong");
  await left.until(`${state} === 'you are left, and a second player is missing'`);
  const right = await board.noted(native.port, 8, "pong");
  await left.until(`${state} === 'you are left'`);
  await right.until(`${state} === 'you are right'`);
  await left.drag("canvas", [[300, 300], [300, 200], [300, 60]]);
  await right.drag("canvas", [[300, 300], [300, 400], [300, 540]]);
  await left.until("[...session.world().values()].some(object => object.fields.points > 0)");
  await right.until(`${points} !== '0 : 0'`);
  const places = await right.run("JSON.stringify([...session.world().values()].filter(object => object.class === 'Paddle').map(object => object.fields.place))");
  check(`two pages play: ${await right.run(points)}, with the paddles at ${places}`, places === "[100,900]");
  await left.picture(join(folder, "pong.png"));
  const notes = [];
  for (const page of [left, right]) notes.push(JSON.parse(await page.run("JSON.stringify(notes)")));
  for (const page of [left, right]) await page.run("session.leave()");
  return () => {
    comparePages(notes);
    compareReplay(native, notes);
  };
}

// ---- both

async function within(program, name, links, port, work) {
  const native = new Native(croquet, program, folder, name);
  try {
    await native.reflect(port, links);
    const compare = await work(native);
    const status = await native.ended();
    check(`the reflector ended with ${status}`, status === 0);
    compare?.();
  } catch (fault) {
    check(fault.stack, false);
  }
  native.close();
}

mkdirSync(folder, { recursive: true });
const site = fileServer(), sitePort = await listening(site);
const port = 20000 + process.pid % 20000;
const browser = new Chromium(join(folder, "chromium"));
const board = new Board(browser, `http://127.0.0.1:${sitePort}`);
await within(program, "board.log", LINKS, port, native => session(board, native));
await within(program, "many.log", 3, port + 1, native => drawsMany(board, native));
await within(pong, "pong.log", 2, port + 2, native => plays(board, native));
browser.close();
site.close();
process.exit(bad ? 1 : 0);
