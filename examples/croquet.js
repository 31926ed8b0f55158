// A view of a session, over two pipes: it writes lines to `croquet join PROGRAM NAME ADDRESS VIEW -`, and reads what that prints.
// A value is null, true, false, a whole number (a BigInt beyond the safe ones), a text, an array of values, or { ref: N }, a reference to
// the object N of the world.
const { spawn } = require("child_process");
const { createInterface } = require("readline");
const ESCAPES = { '"': '\\"', "\\": "\\\\", "\n": "\\n" };
const WORDS = new Map([["nil", null], ["true", true], ["false", false]]);
const TOKEN = /"(?:[^"\\]|\\.)*"|[\[\]]|[^,\[\]]+/g;
const EVENT = /^event ([0-9]+) ("(?:[^"\\]|\\.)*") ("(?:[^"\\]|\\.)*") (.*)$/;

// The text of a value.
function spell(value) {
  if (Array.isArray(value)) return `[${value.map(spell).join(",")}]`;
  if (typeof value === "string") {
    return `"${value.replace(/["\\\x00-\x1f\x7f]/g, it => ESCAPES[it] ?? `\\x${it.charCodeAt(0).toString(16).padStart(2, "0")}`)}"`;
  }
  if (value === null || value === undefined) return "nil";
  return typeof value === "object" ? `#${value.ref}` : String(value);
}

// The value whose tokens come next.
function read_tokens(tokens) {
  const token = tokens.shift();
  if (token === "[") {
    const items = [];
    while (tokens[0] !== "]") items.push(read_tokens(tokens));
    tokens.shift();
    return items;
  }
  if (WORDS.has(token)) return WORDS.get(token);
  if (token[0] === '"') return JSON.parse(token.replace(/\\(.)/g, (it, letter) => (letter === "x" ? "\\u00" : it)));
  if (token[0] === "#") return { ref: Number(token.slice(1)) };
  return Number.isSafeInteger(Number(token)) ? Number(token) : BigInt(token);
}

const read = text => read_tokens(text.match(TOKEN));

class Session {
  constructor(program, name, address, view, croquet = "./croquet") {
    this.handlers = new Map();
    this.waiting = [];
    this.said = [];
    this.process = spawn(croquet, ["join", program, name, address, String(view), "-"], { stdio: ["pipe", "pipe", "inherit"] });
    this.process.stdin.on("error", () => {});
    this.ended = new Promise(resolve => this.process.on("close", status => resolve(this.end(status))));
    createInterface({ input: this.process.stdout }).on("line", line => this.hear(line));
  }

  hear(line) {
    const event = line.match(EVENT);
    if (event) return this.handlers.get(`${event[2]} ${event[3]}`)?.(read(event[4]));
    if (line !== "mark done") return this.said.push(line);
    this.waiting.shift().resolve(this.said.splice(0));
  }

  end(status) {
    for (const asked of this.waiting) asked.reject(new Error(`ended with status ${status}: ${this.said.at(-1)}`));
    return { status, last: this.said.at(-1) };
  }

  write(line) {
    this.process.stdin.write(`${line}\n`);
  }

  publish(scope, event, value = null) {
    this.write(`publish ${spell(scope)} ${spell(event)} ${spell(value)}`);
  }

  // Calls handler(value) for each such event that models publish from now on.
  on(scope, event, handler) {
    this.handlers.set(`${spell(scope)} ${spell(event)}`, handler);
    this.write(`watch ${spell(scope)} ${spell(event)} queued`);
  }

  // Writes a line. What it prints is there once it is done.
  ask(line) {
    this.write(`${line}\nmark done`);
    return new Promise((resolve, reject) => this.waiting.push({ resolve, reject }));
  }

  // Until the reflector has all that was published.
  settle() {
    return this.ask("settle");
  }

  // The lines of the world, as `inspect` prints them.
  show() {
    return this.ask("show");
  }

  // Leaves. What comes is the status of the run and its last line.
  leave() {
    this.process.stdin.end();
    return this.ended;
  }
}

module.exports = { Session, spell, read };
