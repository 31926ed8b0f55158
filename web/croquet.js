// A view of a session, computed in the page itself by the proved view of this repository. It has no dependencies.
//
//   const board = await Session.join({ program, name: "board", url: "ws://localhost:8080" });
//   board.subscribe("board", "changed", count => redraw(board.world()));
//   board.publish("board", "draw", [10, 10, 20, 10]);

const encoder = new TextEncoder();
const decoder = new TextDecoder();

// ---- values and their texts

/** The text of a string as a view's lines have it. A string with half a character is no text. */
function literal(text, path) {
  let out = '"';
  for (const character of text) {
    const code = character.codePointAt(0);
    if (code >= 0xd800 && code <= 0xdfff) throw new TypeError(`${path}: a text with half a character`);
    if (character === '"' || character === "\\") out += "\\" + character;
    else if (character === "\n") out += "\\n";
    else if (code < 32 || code === 127) out += "\\x" + code.toString(16).padStart(2, "0");
    else out += character;
  }
  return out + '"';
}

function numberText(value, path) {
  if (!Number.isSafeInteger(value)) throw new TypeError(`${path}: ${value} is no whole number that is exact; take a BigInt`);
  return String(value === 0 ? 0 : value);
}

function bigText(value, path) {
  if (value < -(2n ** 63n) || value >= 2n ** 63n) throw new TypeError(`${path}: ${value} has more than 64 bits`);
  return value.toString();
}

function isReference(value) {
  const keys = value === null || typeof value !== "object" ? [] : Object.keys(value);
  return keys.length === 1 && Number.isInteger(value.ref) && value.ref >= 0 && value.ref < 2 ** 32;
}

/** The text of a value. What is no value of a model throws a TypeError that says where it is. */
export function valueText(value, path = "value") {
  if (value === null) return "nil";
  if (typeof value === "boolean") return String(value);
  if (typeof value === "bigint") return bigText(value, path);
  if (typeof value === "number") return numberText(value, path);
  if (typeof value === "string") return literal(value, path);
  if (Array.isArray(value)) return "[" + Array.from(value, (item, index) => valueText(item, `${path}[${index}]`)).join(",") + "]";
  if (isReference(value)) return "#" + value.ref;
  throw new TypeError(`${path}: a value is null, a boolean, a whole number, a text, a list or { ref }`);
}

// Each reader gives what it read from a place of a text on, and the place after it.

function readText(text, from) {
  let out = "", at = from + 1;
  while (text[at] !== '"') {
    if (text[at] !== "\\") { out += text[at++]; continue; }
    const mark = text[at + 1];
    if (mark === "x") { out += String.fromCharCode(parseInt(text.slice(at + 2, at + 4), 16)); at += 4; continue; }
    out += mark === "n" ? "\n" : mark;
    at += 2;
  }
  return [out, at + 1];
}

function readList(text, from) {
  const items = [];
  let at = from + 1;
  while (text[at] !== "]") {
    const [item, after] = readValue(text, at);
    items.push(item);
    at = text[after] === "," ? after + 1 : after;
  }
  return [items, at + 1];
}

const WORD_ENDS = " ,]\n";

function readWord(text, from) {
  let at = from;
  while (at < text.length && !WORD_ENDS.includes(text[at])) at++;
  return [text.slice(from, at), at];
}

function valueOfWord(word) {
  if (word === "nil") return null;
  if (word === "true" || word === "false") return word === "true";
  if (word[0] === "#") return { ref: Number(word.slice(1)) };
  return Number.isSafeInteger(Number(word)) ? Number(word) : BigInt(word);
}

/** The value at a place of a text, and the place after it. Numbers that a Number does not hold are BigInts. */
export function readValue(text, at = 0) {
  if (text[at] === '"') return readText(text, at);
  if (text[at] === "[") return readList(text, at);
  const [word, after] = readWord(text, at);
  return [valueOfWord(word), after];
}

// ---- the world as text

function frozen(value) {
  if (value === null || typeof value !== "object") return value;
  if (Array.isArray(value)) value.forEach(item => frozen(item));
  else for (const name in value) frozen(value[name]);
  return Object.freeze(value);
}

function readFields(text, from) {
  const fields = {};
  let at = from;
  while (text[at] === " ") {
    const [field, after] = readWord(text, at + 1);
    const [value, end] = readValue(text, after + 1);
    fields[field] = value;
    at = end;
  }
  return frozen(fields);
}

// An object of a world. Its fields are read once they are asked for: a list of thousands may be another at each look, and a page may draw without it.
// All have one getter, so that they are of one shape for the engine.
class WorldObject {
  #text;
  #from;
  #fields;

  // A part of a text keeps all of it in memory. A text that is put together, and looked through, does not.
  constructor(line) {
    this.#text = "an " + line;
    const [head, number, name] = /^an object (\d+) (\S+)/.exec(this.#text);
    this.#from = head.length;
    this.ref = Number(number);
    this.class = name;
    Object.defineProperty(this, "fields", { enumerable: true, get: WorldObject.#read });
    Object.freeze(this);
  }

  static #read() {
    if (this.#text !== null) this.#fields = readFields(this.#text, this.#from);
    this.#text = null;
    return this.#fields;
  }
}

/** What was read of a world, so that the next look reads only what has changed. */
export class Reading {
  constructor() {
    this.lines = [];
    this.objects = [];
  }

  // The place of a line among those that were read, at the place where it is looked for or after one object that is gone.
  placeOf(line, place) {
    if (this.lines[place] === line) return place;
    return this.lines[place + 1] === line ? place + 1 : -1;
  }

  /** The objects of a world from its text, in its order. What they have is frozen, and one whose line is the same is the one of the last look. */
  next(text) {
    const lines = [], objects = [];
    let place = 0;
    for (const line of text.split("\n")) {
      if (!line.startsWith("object ")) continue;
      const found = this.placeOf(line, place);
      place = (found < 0 ? place : found) + 1;
      lines.push(line);
      objects.push(found < 0 ? new WorldObject(line) : this.objects[found]);
    }
    this.lines = lines;
    this.objects = objects;
    return objects;
  }
}

/** The objects of a world, by their numbers, from its text. */
export function objectsOf(text, reading = new Reading()) {
  const objects = new Map();
  for (const object of reading.next(text)) objects.set(object.ref, object);
  return objects;
}

/** The digest of a world, from its text. */
export function digestOf(text) {
  return /^time .* digest ([0-9a-f]{64})$/m.exec(text)[1];
}

// ---- the module

let compiled = null;

async function fetched(name) {
  const reply = await fetch(new URL(name, import.meta.url));
  if (!reply.ok) throw new Error(`${name}: ${reply.status} ${reply.statusText}`);
  return reply.arrayBuffer();
}

// An engine without memories of 64 bits refuses the first module, and takes the second, which is made from it.
async function compile(bytes) {
  if (bytes) return WebAssembly.compile(bytes);
  try {
    return await WebAssembly.compile(await fetched("croquet.wasm"));
  } catch (fault) {
    if (!(fault instanceof WebAssembly.CompileError)) throw fault;
    return WebAssembly.compile(await fetched("croquet-lowered.wasm").catch(({ message }) => {
      throw new Error(`this engine has no memories of 64 bits, and there is no module for it: ${message}`);
    }));
  }
}

/** The calls of a new instance of the module. Its bytes are in the folder of this file, or are given. */
export async function engine(bytes) {
  compiled ??= compile(bytes);
  try {
    return (await WebAssembly.instantiate(await compiled, {})).exports;
  } catch (fault) {
    compiled = null;
    throw fault;
  }
}

/** What a page hears, by the numbers that `page_step` takes. */
export const LINKED = 0, LINK_FAILED = 1, FRAME = 2, QUIET = 3, END = 4, LINE = 5, CLOSED = 6;

/** What a page wants next. */
export const WANTS_INPUT = 0, WANTS_LINK = 1, IS_OVER = 2;

const MEMORY = 8;
const TOLD_SIZE = 64;
const OPENINGS = { 3: "name: a text of at most 255 bytes", 4: "view: a number from 1 to 4294967295", 8: "memory" };

/** One page of the module: what it hears and what it answers, without a net. */
export class Page {
  constructor(calls, program, name, view) {
    this.calls = calls;
    this.size = 0;
    this.grow(65536);
    this.told = this.taken(TOLD_SIZE);
    this.handle = this.taken(16);
    if (calls.page_seat(this.handle)) throw new Error("memory");
    this.open(program, encoder.encode(name), view);
  }

  open(program, name, view) {
    this.grow(program.length + name.length);
    const from = this.put(program), title = this.put(name, program.length);
    const status = this.calls.page_open(this.handle, from, BigInt(program.length), title, BigInt(name.length), view);
    if (status === 0) return;
    const line = status === 2 ? this.copied(this.calls.page_text).trim() : "";
    this.close();
    throw new Error(line ? `program: ${line}` : OPENINGS[status] ?? `status ${status}`);
  }

  taken(size) {
    const at = this.calls.page_room(BigInt(size));
    if (!at) throw new Error("memory");
    return at;
  }

  // Room for what is handed in and copied out. It grows, and is taken once for all calls.
  grow(size) {
    if (size <= this.size) return;
    const room = this.taken(size);
    if (this.size) this.calls.page_free(this.room);
    this.room = room;
    this.size = size;
  }

  put(bytes, offset = 0) {
    const at = this.room + BigInt(offset);
    new Uint8Array(this.calls.memory.buffer, Number(at), bytes.length).set(bytes);
    return at;
  }

  // What a call copies out, whose length it gives, as it lies in the room until the next call.
  laid(copy) {
    const length = Number(copy(this.room, BigInt(this.size)));
    if (length > this.size) {
      this.grow(length);
      copy(this.room, BigInt(this.size));
    }
    return new Uint8Array(this.calls.memory.buffer, Number(this.room), length);
  }

  copied(call) {
    return decoder.decode(this.laid((room, size) => call(this.handle, room, size)));
  }

  numbers() {
    const view = new DataView(this.calls.memory.buffer, Number(this.told), TOLD_SIZE);
    const long = place => Number(view.getBigUint64(place, true)), short = place => view.getUint32(place, true);
    return {
      time: long(0), unacknowledged: long(24), kept: view.getBigUint64(32, true), seen: short(40), status: short(44), want: short(48), end: short(52), code: short(56),
      here: short(60) === 1, texts: long(8), count: long(16),
    };
  }

  answer() {
    const told = this.numbers();
    told.text = told.texts ? this.copied(this.calls.page_text) : "";
    told.frames = [];
    for (let index = 0; index < told.count; index++) told.frames.push(this.laid((room, size) => this.calls.page_frame(this.handle, index, room, size)).slice());
    return told;
  }

  /** Tells the page one thing, and gives what it answers. */
  step(kind, bytes = new Uint8Array(0)) {
    this.grow(bytes.length);
    const at = this.put(bytes);
    this.calls.page_step(this.handle, kind, at, BigInt(bytes.length), this.told);
    return this.answer();
  }

  line(text) { return this.step(LINE, encoder.encode(text)); }

  /** The world in full, as the line `show` of a view prints it. */
  world() {
    this.calls.page_world(this.handle, this.told);
    return this.answer();
  }

  /** The page hears nothing more. Its seat, of some hundred bytes, stays in the module. */
  close() {
    this.calls.page_close(this.handle);
    for (const block of [this.room, this.told, this.handle]) this.calls.page_free(block);
    this.calls = null;
  }
}

// ---- a session

const HOLDS = 4294967295;
const MOST_LINE = 65536;
const QUIET_EVERY = 10;
const MOST_QUIETS = 6000;
const ENDS = { 6: "the net failed", 8: "memory", 9: "the reflector ended the link", 10: "the reflector broke the rules, or this view's number was used before" };
const EVENTS = ["lost", "rejoined", "refused", "ended", "moved"];
const OPEN = 1;

function checkedView(view) {
  const drawn = view ?? 1 + crypto.getRandomValues(new Uint32Array(1))[0] % 0xfffffffe;
  if (!Number.isInteger(drawn) || drawn < 1 || drawn > 0xffffffff) throw new TypeError("view: a number from 1 to 4294967295");
  return drawn;
}

function checkedProgram(program) {
  if (typeof program === "string") return encoder.encode(program);
  if (program instanceof Uint8Array) return program;
  if (program instanceof ArrayBuffer) return new Uint8Array(program);
  throw new TypeError("program: a text or its bytes");
}

function checkedText(value, path) {
  if (typeof value !== "string") throw new TypeError(`${path}: a text`);
  return literal(value, path);
}

// A handler that throws stops neither the session nor other handlers: what it threw is told as what nobody caught.
function callHandler(handler, ...words) {
  try {
    handler(...words);
  } catch (fault) {
    queueMicrotask(() => { throw fault; });
  }
}

// What a view says as it leaves.
function lastLine(text) {
  const found = /^view (\d+) time (\d+) seq (\d+) digest ([0-9a-f]{64})$/m.exec(text);
  return found && { view: Number(found[1]), time: Number(found[2]), seq: Number(found[3]), digest: found[4] };
}

/** A session that a page takes part in. */
export class Session {
  /**
   * Joins a session, and is done once the view has taken the entry of its own join.
   *
   * `program` is the program's text or its bytes, `name` the session's name, `url` its reflector's address. `view` is the view's number; without one it is
   * drawn anew. `wasm` are the module's bytes, `socket` makes a WebSocket, and `again` is how many milliseconds pass before a socket that was lost is
   * made again. It throws where the program is refused, where no socket is made, and where the reflector refuses the view.
   */
  static async join({ program, name, url, view, wasm, socket = address => new WebSocket(address), again = 1000 }) {
    const bytes = checkedProgram(program), number = checkedView(view);
    checkedText(name, "name");
    checkedText(url, "url");
    const session = new Session(new Page(await engine(wasm), bytes, name, number), { url, socket, again, view: number });
    await new Promise((done, failed) => {
      session.joining = { done, failed };
      session.connect();
    });
    return session;
  }

  constructor(page, outside) {
    this.page = page;
    this.outside = outside;
    this.view = outside.view;
    this.topics = new Map();
    this.listeners = new Map(EVENTS.map(name => [name, []]));
    this.waiting = { settled: [], snapped: [], left: [] };
    this.told = { time: 0, seen: 0, unacknowledged: 0, want: WANTS_LINK };
    this.lines = [];
    this.reading = new Reading();
    this.written = null;
    this.isTelling = false;
    this.isLost = false;
    this.isOver = false;
    this.link = null;
    this.take(page.line(`hold ${HOLDS}`));
  }

  // ---- the link

  connect() {
    const link = this.outside.socket(this.outside.url);
    this.link = link;
    link.binaryType = "arraybuffer";
    link.onopen = () => { if (link === this.link) this.hear(LINKED); };
    link.onmessage = message => { if (link === this.link) this.hearFrame(message.data); };
    link.onclose = () => { if (link === this.link) this.loseLink(); };
    link.onerror = () => {};
    this.heard = performance.now();
    this.quiets = 0;
    this.beat ??= setInterval(() => this.tellQuiets(), 100);
  }

  hear(kind, bytes) {
    this.heard = performance.now();
    this.quiets = 0;
    this.take(this.page.step(kind, bytes));
  }

  // The reflector sends frames in binary messages alone. Another message is handed in as it is, and ends the view as such a frame does.
  hearFrame(data) {
    this.hear(FRAME, typeof data === "string" ? encoder.encode(data) : new Uint8Array(data));
    if (!this.isOver) this.emit("moved");
  }

  // A link counts as quiet once for each ten milliseconds in which it said nothing. A tab in the back tells many of them at a time.
  tellQuiets() {
    if (this.isOver || this.link?.readyState !== OPEN) return;
    const due = Math.min(MOST_QUIETS, Math.floor((performance.now() - this.heard) / QUIET_EVERY));
    while (this.quiets < due && !this.isOver && this.told.want === WANTS_INPUT) {
      this.quiets++;
      this.take(this.page.step(QUIET));
    }
  }

  loseLink() {
    this.link = null;
    if (this.isOver) return;
    if (this.joining) {
      this.failJoin(new Error(`no link to ${this.outside.url}`));
      return;
    }
    const wasHeard = this.told.want === WANTS_INPUT;
    this.take(this.page.step(wasHeard ? END : LINK_FAILED));
    if (this.isOver) return;
    if (wasHeard) this.tellLost();
    this.later();
  }

  later() {
    setTimeout(() => { if (!this.isOver && !this.link) this.connect(); }, this.outside.again);
  }

  dropLink() {
    const link = this.link;
    this.link = null;
    link?.close();
  }

  // ---- what the page answers

  take(told) {
    this.told = told;
    this.written = null;
    for (const frame of told.frames) if (this.link?.readyState === OPEN) this.link.send(frame);
    this.lines.push(...told.text.split("\n").filter(line => line));
    this.last ??= lastLine(told.text);
    if (told.status === MEMORY) this.forget();
    this.tellLines();
    if (told.here) this.finishJoin();
    if (told.want === IS_OVER) this.finish(told);
    else if (told.want === WANTS_LINK && this.link?.readyState === OPEN) this.changeLink();
  }

  // The view wants another link while it has one: that was quiet for too long, its snapshot did not fit, or memory was wanted.
  changeLink() {
    this.dropLink();
    if (!this.joining) this.tellLost();
    this.connect();
  }

  tellLost() {
    if (this.isLost) return;
    this.isLost = true;
    this.emit("lost");
  }

  tellRejoined(what) {
    if (!this.isLost) return;
    this.isLost = false;
    this.emit("rejoined", what);
  }

  // Lines that were left are gone with the memory. Once the view has joined again it says one time how many events the reflector has.
  forget() {
    for (const { failed } of this.waiting.snapped.splice(0)) failed(new Error("memory"));
    const all = this.waiting.settled.splice(0);
    this.waiting.settled.push({ done: count => all.forEach(({ done }) => done(count)), failed: fault => all.forEach(({ failed }) => failed(fault)) });
  }

  // Handlers may publish, and so bring further lines: these come after those that are there.
  tellLines() {
    if (this.isTelling) return;
    this.isTelling = true;
    try {
      while (this.lines.length) this.tellLine(this.lines.shift());
    } finally {
      this.isTelling = false;
    }
  }

  tellLine(line) {
    const [word, ...words] = line.split(" ");
    if (word === "event") this.tellEvent(line);
    else if (word === "settled") this.waiting.settled.splice(0, 1).forEach(({ done }) => done(Number(words[0])));
    else if (word === "snapped") this.waiting.snapped.splice(0, 1).forEach(({ done }) => done(Number(words[0])));
    else if (word === "snap-refused") this.waiting.snapped.splice(0, 1).forEach(({ failed }) => failed(new Error(`snapshot refused: ${words.join(" ")}`)));
    else if (word === "rejoined") this.tellRejoined({ seq: Number(words[0]), from: Number(words[1]) });
  }

  tellEvent(line) {
    const [time, first] = readWord(line, "event ".length);
    const [scope, second] = readValue(line, first + 1);
    const [event, third] = readValue(line, second + 1);
    const [value] = readValue(line, third + 1);
    for (const handler of [...this.handlers(scope, event)]) callHandler(handler, value, Number(time));
  }

  // The view has the entry of its own join. Where its world was made anew, no line has said that it joined again.
  finishJoin() {
    this.joining?.done();
    this.joining = null;
    this.tellRejoined({ seq: this.seen, from: 0 });
  }

  failJoin(fault) {
    const { failed } = this.joining;
    this.joining = null;
    this.shut();
    failed(fault);
  }

  finish(told) {
    if (this.isOver) return;
    const what = told.end === 7 ? { name: "refused", value: { code: told.code, kept: told.kept } } : { name: "ended", value: ENDS[told.end] ?? "left" };
    if (this.joining) {
      this.failJoin(new Error(told.end === 7 ? `refused: code ${told.code}, ${told.kept}` : what.value));
      return;
    }
    this.shut();
    if (told.end !== 0) this.emit(what.name, what.value);
  }

  // The page is closed. What is still waited for comes no more, but for the last line, where there is one.
  shut() {
    this.isOver = true;
    clearInterval(this.beat);
    this.dropLink();
    this.page.close();
    for (const { done } of this.waiting.left.splice(0)) done(this.last ?? null);
    for (const { failed } of [...this.waiting.settled.splice(0), ...this.waiting.snapped.splice(0)]) failed(new Error("the session has ended"));
  }

  // ---- what a program calls

  line(text) {
    if (this.isOver) throw new Error("the session has ended");
    if (encoder.encode(text).length > MOST_LINE) throw new RangeError("the value is too large");
    const told = this.page.line(text);
    this.take(told);
    if (/^bad-line \d+$/m.test(told.text)) throw new RangeError("the value is too large, or too many events were published");
  }

  handlers(scope, event) {
    return this.topics.get(JSON.stringify([scope, event])) ?? [];
  }

  /** Publishes an event. A value that is none of a model throws at once. */
  publish(scope, event, value = null) {
    this.line(`publish ${checkedText(scope, "scope")} ${checkedText(event, "event")} ${valueText(value)}`);
  }

  /** Calls a handler with the value and the time of each such event that models publish from now on. With "once", of those that come together with the last alone. */
  subscribe(scope, event, handler, { handling = "queued" } = {}) {
    if (handling !== "queued" && handling !== "once") throw new TypeError('handling: "queued" or "once"');
    if (typeof handler !== "function") throw new TypeError("handler: a function");
    this.line(`watch ${checkedText(scope, "scope")} ${checkedText(event, "event")} ${handling}`);
    const key = JSON.stringify([scope, event]);
    this.topics.set(key, [...this.handlers(scope, event), handler]);
  }

  /** Calls the handler no more; without a handler, none of that event. */
  unsubscribe(scope, event, handler) {
    const left = handler ? this.handlers(scope, event).filter(other => other !== handler) : [];
    this.topics.set(JSON.stringify([scope, event]), left);
  }

  waits(kind, text) {
    return new Promise((done, failed) => {
      this.waiting[kind].push({ done, failed });
      try {
        this.line(text);
      } catch (fault) {
        this.waiting[kind].pop();
        failed(fault);
      }
    });
  }

  /** Is done once the reflector has each event that was published before, with their number. Events that are published meanwhile are sent after that. */
  settled() { return this.waits("settled", "settle"); }

  /** Offers a snapshot of the world for those who join later. Is done with its time once the reflector keeps it. */
  snap() { return this.waits("snapped", "snap"); }

  /** The world's time in microseconds, and how many entries of the session's log the view has. */
  get time() { return this.told.time; }
  get seen() { return this.told.seen; }

  /** The world in full, as text. It is written once after each thing that the page was told. */
  text() {
    if (this.isOver) throw new Error("the session has ended");
    this.written ??= this.writtenWorld();
    return this.written;
  }

  writtenWorld() {
    const told = this.page.world();
    if (told.status) {
      this.take(told);
      throw new Error("memory");
    }
    return told.text;
  }

  /** The objects of the world by their numbers, each with its number, its class and its fields. One that has not changed is the one of the last look. */
  world() { return objectsOf(this.text(), this.reading); }

  /** The fingerprint of the world. */
  digest() { return digestOf(this.text()); }

  /** Calls a handler at "lost", "rejoined", "refused", "ended", and at "moved", which comes with each thing that the link said. */
  on(name, handler) {
    if (!EVENTS.includes(name)) throw new TypeError(`${name}: one of ${EVENTS.join(", ")}`);
    this.listeners.get(name).push(handler);
  }

  emit(name, value) {
    for (const handler of [...this.listeners.get(name)]) callHandler(handler, value);
  }

  /** Leaves the session. Is done with the last line: time, seq and digest; with null where the link is lost. */
  leave() {
    if (this.isOver) return Promise.resolve(this.last ?? null);
    if (this.link?.readyState !== OPEN) {
      this.shut();
      return Promise.resolve(null);
    }
    return this.waits("left", "quit");
  }
}
