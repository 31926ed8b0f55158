// Figures of the module, in the processor's time: node figures.mjs MODULE.wasm PROGRAM. It ends with 1 where memory grows in 100,000 steps.
import { readFileSync } from "node:fs";
import { gzipSync } from "node:zlib";
import { Page, Reading, engine, digestOf, objectsOf, FRAME, LINE, LINKED } from "../croquet.js";
import { board, drawn, joined, sync, tick } from "./frames.mjs";

const [module, file] = process.argv.slice(2);
const bytes = readFileSync(module), program = readFileSync(file);
const calls = await engine(bytes);
// The processor's time in milliseconds, which other processes do not stretch. The engine's own threads count too.
const now = () => {
  const { user, system } = process.cpuUsage();
  return (user + system) / 1000;
};
const middle = list => list.sort((one, other) => one - other)[list.length >> 1];

function timed(work) {
  const from = now();
  work();
  return now() - from;
}

function opened() {
  const page = new Page(calls, program, "board", 7);
  page.step(LINKED);
  return page;
}

function stepped(page, frames) {
  for (const frame of frames) {
    const told = page.step(FRAME, frame);
    if (told.status || told.want) throw new Error(`status ${told.status}, want ${told.want}, end ${told.end}`);
  }
}

// As the whiteboard reads a world: the fields of its strokes.
function readStrokes(text, reading) {
  for (const object of objectsOf(text, reading).values()) if (object.class === "Stroke") object.fields;
}

function tellBoard(count) {
  const frames = board(count), times = [];
  let page = null;
  for (let run = 0; run < 5; run++) {
    page?.close();
    page = opened();
    times.push(timed(() => stepped(page, frames)) * 1000 / frames.length);
  }
  const text = page.world().text, reading = new Reading();
  const looks = Array.from({ length: 21 }, () => timed(() => page.world()));
  const reads = Array.from({ length: 21 }, () => timed(() => readStrokes(text)));
  readStrokes(text, reading);
  const drawnOn = Array.from({ length: 21 }, (item, index) => {
    stepped(page, [drawn(count + 2 + index, 20000 * count + 2 + index, 5, count + 1 + index, "draw", [1, 2, 3, 4])]);
    return page.world().text;
  });
  const news = drawnOn.map(text => timed(() => readStrokes(text, reading)));
  console.log(`${count} strokes: ${times[0].toFixed(0)} us a frame at first, ${times.at(-1).toFixed(0)} in the fifth run; the world's text ${middle(looks).toFixed(1)} ms, to read it ${middle(reads).toFixed(1)} ms, what a stroke changed ${middle(news).toFixed(1)} ms; digest ${digestOf(text).slice(0, 8)}`);
  page.close();
}

// A stroke, its undo, and ticks.
function growth(count) {
  const page = opened();
  page.step(LINE, Buffer.from('watch "board" "changed" queued'));
  stepped(page, [sync(), joined(1, 1, 5)]);
  let memory = 0n, number = 0;
  const from = now();
  for (let step = 1; step <= count; step++) {
    const time = 1 + 1000 * step;
    if (step % 2) stepped(page, [tick(time)]);
    else stepped(page, [drawn(1 + ++number, time, 5, number, step % 4 ? "draw" : "undo", step % 4 ? [1, 2, 3, 4] : 5)]);
    if (step === count / 5) memory = calls.page_memory();
  }
  const grown = calls.page_memory() - memory;
  console.log(`${grown ? "BAD " : "ok  "} ${count} steps: ${((now() - from) * 1000 / count).toFixed(1)} us a step, memory ${memory} bytes after a fifth of them, and ${grown} more in the end`);
  page.close();
  return grown === 0n;
}

console.log(`module: ${bytes.length} bytes, ${gzipSync(bytes, { level: 9 }).length} packed`);
const first = timed(() => opened().close());
console.log(`opening: ${first.toFixed(1)} ms at first, ${middle(Array.from({ length: 21 }, () => timed(() => opened().close()))).toFixed(2)} then`);
tellBoard(1000);
tellBoard(4000);
process.exit(growth(100000) ? 0 : 1);
