// One figure of a live session: node live_figures.js FIGURE PORT [PROGRAM]. With PROGRAM the reflector is that program's `reflect`, else it is
// plain_reflector.js. examples/measure_live.sh runs them all. It needs node-ws of Debian, and Linux.
const WebSocket = require("/usr/share/nodejs/ws");
const { createHash } = require("crypto");
const fs = require("fs"), os = require("os"), path = require("path");
const { spawn } = require("child_process");
const [figure, portWord, program] = process.argv.slice(2);
const port = Number(portWord);
const folder = fs.mkdtempSync(path.join(os.tmpdir(), "live-figures-"));
const model = path.join(folder, "program");
fs.writeFileSync(model, "class Root{field n;init(o){this.n=0;}}");

const u32 = number => { const bytes = Buffer.alloc(4); bytes.writeUInt32BE(number); return bytes; };
const u64 = number => { const bytes = Buffer.alloc(8); bytes.writeBigUInt64BE(BigInt(number)); return bytes; };
const field = bytes => Buffer.concat([u32(bytes.length), bytes]);
const ident = createHash("sha256").update(Buffer.concat([field(Buffer.from("live")), fs.readFileSync(model)])).digest();
const payload = Buffer.concat([field(Buffer.from("game")), field(Buffer.from("move")), Buffer.from([3]), u64(0)]);
const RECV = 66, TICK = 67, DONE = 68, SNAPPED = 69;

const milliseconds = () => Number(process.hrtime.bigint()) / 1e6;
const sleep = time => new Promise(resolve => setTimeout(resolve, time));
const part = (numbers, share) => numbers.slice().sort((x, y) => x - y)[Math.min(numbers.length - 1, Math.floor(numbers.length * share))];
const spread = numbers => `median ${part(numbers, 0.5).toFixed(2)} ms, 99th percentile ${part(numbers, 0.99).toFixed(2)} ms`;
// The processor time of a process, in milliseconds, and its memory.
const processor = id => { const fields = fs.readFileSync(`/proc/${id}/stat`, "utf8").split(") ")[1].split(" "); return (Number(fields[11]) + Number(fields[12])) * 10; };
const memory = id => Number(/VmRSS:\s+(\d+)/.exec(fs.readFileSync(`/proc/${id}/status`, "utf8"))[1]);

function serve(links) {
  const words = program
    ? [program, "reflect", model, "live", `127.0.0.1:${port}`, "--connections", String(links), "--log", path.join(folder, "log")]
    : [process.execPath, path.join(__dirname, "plain_reflector.js"), String(port)];
  const server = spawn(words[0], words.slice(1), { stdio: "ignore" });
  process.on("exit", () => { server.kill("SIGKILL"); fs.rmSync(folder, { recursive: true, force: true }); });
  for (const signal of ["SIGINT", "SIGTERM"]) process.on(signal, () => process.exit(1));
  return server;
}

function connect(view, hear) {
  return new Promise((resolve, reject) => {
    const link = new WebSocket(`ws://127.0.0.1:${port}/`, { perMessageDeflate: false });
    link.on("open", () => link.send(Buffer.concat([Buffer.from([1]), ident, u32(view), Buffer.from([1])])));
    link.on("message", bytes => (bytes[0] === 65 ? resolve(link) : hear(bytes, link)));
    link.on("error", reject);
  });
}

// Joins as a view, as soon as the reflector listens.
async function join(view, hear = () => {}) {
  for (let tries = 0; ; tries++) {
    try { return await connect(view, hear); } catch (error) { if (tries === 100) throw error; await sleep(50); }
  }
}

const event_of = bytes => (bytes[0] === RECV && bytes.readUInt32BE(13) === 1 && bytes[17] === 3 ? bytes.readUInt32BE(18) : 0);
const send = (link, number) => link.send(Buffer.concat([Buffer.from([2]), u32(number), field(payload)]));

// A view that sends so many events, 256 of which are not acknowledged at the most. It is done once all are.
async function sender(total) {
  let sent = 0, finish;
  const done = new Promise(resolve => { finish = resolve; });
  const pump = (link, acknowledged) => { while (sent < total && sent - acknowledged < 256) send(link, ++sent); };
  const link = await join(1, (bytes, link) => {
    if (bytes[0] !== DONE) return;
    const acknowledged = bytes.readUInt32BE(1);
    pump(link, acknowledged);
    if (acknowledged === total) finish();
  });
  return { link, start: () => pump(link, 0), done };
}

// A view that is done once it has so many events of view 1.
async function reader(view, total, note = () => {}) {
  let count = 0, finish;
  const done = new Promise(resolve => { finish = resolve; });
  await join(view, bytes => {
    const number = event_of(bytes);
    if (number) { note(number); if (++count === total) finish(); }
  });
  return done;
}

const figures = {
  // One event each 25 milliseconds.
  async latency(server) {
    const at = {}, other = [], own = [];
    await join(2, bytes => { const number = event_of(bytes); if (number) other.push(milliseconds() - at[number]); });
    const link = await join(1, bytes => { const number = event_of(bytes); if (number) own.push(milliseconds() - at[number]); });
    for (let number = 1; number <= 400; number++) { at[number] = milliseconds(); send(link, number); await sleep(24); }
    await sleep(300);
    return `own RECV: ${spread(own)}; another's RECV: ${spread(other)}; processor ${processor(server)} ms`;
  },
  async flood(server) {
    const total = 20000;
    const { start, done } = await sender(total), got = reader(2, total);
    await sleep(200);
    const begun = milliseconds(), before = processor(server);
    start();
    await got;
    const seconds = (milliseconds() - begun) / 1000;
    await done;
    return `${(total / seconds).toFixed(0)} events a second from one to another, processor ${processor(server) - before} ms`;
  },
  // 600 events a second to 31 readers.
  async fan(server) {
    const total = 600, at = {}, taken = [], readers = [];
    for (let view = 2; view <= 32; view++) readers.push(reader(view, total, number => taken.push(milliseconds() - at[number])));
    const { link } = await sender(0);
    await sleep(500);
    const begun = milliseconds(), before = processor(server);
    for (let number = 1; number <= total;) {
      while (number <= total && number <= (milliseconds() - begun) * 0.6) { at[number] = milliseconds(); send(link, number++); }
      await sleep(1);
    }
    await Promise.all(readers);
    return `600 events a second to 31: ${spread(taken)}, processor ${processor(server) - before} ms`;
  },
  async idle(server) {
    let ticks = 0;
    for (let view = 1; view <= 60; view++) await join(view, bytes => { ticks += bytes[0] === TICK; });
    await sleep(500);
    const before = processor(server), counted = ticks;
    await sleep(5000);
    return `60 idle views: ${((processor(server) - before) / 50).toFixed(1)} % of a processor, ${((ticks - counted) / 300).toFixed(1)} ticks a second each, ${memory(server)} KiB`;
  },
  async catch() {
    const total = 100000, { start, done } = await sender(total);
    start();
    await done;
    const begun = milliseconds();
    await reader(2, total);
    return `100,000 entries to one who joins: ${((milliseconds() - begun) / 1000).toFixed(2)} s`;
  },
  // A snapshot of 4 MiB to one who reads 50,000 bytes a second.
  async slow(server) {
    const snapshot = Buffer.alloc(4194304, 7);
    let offer, kept;
    const has_tick = new Promise(resolve => { offer = resolve; }), is_kept = new Promise(resolve => { kept = resolve; });
    const giver = await join(1, bytes => { if (bytes[0] === TICK) offer(bytes.readBigUInt64BE(1)); if (bytes[0] === SNAPPED) kept(); });
    giver.send(Buffer.concat([Buffer.from([3]), u64(await has_tick), field(snapshot)]));
    await is_kept;
    const begun = milliseconds(), { stdout } = require("child_process").spawnSync("python3", ["-c", SLOW_READER, String(port), ident.toString("hex")]);
    return `4 MiB at 50,000 bytes a second: ${String(stdout).trim()} bytes in ${((milliseconds() - begun) / 1000).toFixed(0)} s`;
  },
};
// node reads ahead, so a small receive buffer is had in Python alone.
const SLOW_READER = `
import socket, struct, sys, time
s = socket.socket(); s.setsockopt(socket.SOL_SOCKET, socket.SO_RCVBUF, 65536); s.connect(("127.0.0.1", int(sys.argv[1])))
s.sendall(b"GET / HTTP/1.1\\r\\nHost: x\\r\\nUpgrade: websocket\\r\\nConnection: Upgrade\\r\\nSec-WebSocket-Key: dGhlIHNhbXBsZSBub25jZQ==\\r\\nSec-WebSocket-Version: 13\\r\\n\\r\\n")
join = b"\\x01" + bytes.fromhex(sys.argv[2]) + struct.pack(">IB", 2, 0)
s.recv(4096); s.sendall(bytes([0x82, 0x80 | len(join), 0, 0, 0, 0]) + join)
begun, taken = time.monotonic(), 0
while taken < 4194304:
    piece = s.recv(5000)
    if not piece: break
    taken += len(piece)
    time.sleep(max(0, begun + taken / 50000 - time.monotonic()))
print(taken)
`;

(async () => {
  if (!figures[figure]) throw new Error(`the figures are ${Object.keys(figures).join(", ")}`);
  const links = { fan: 32, idle: 60 }[figure] || 2, server = serve(links);
  console.log(`${program ? "croquet" : "node   "} ${figure}: ${await figures[figure](server.pid)}`);
  process.exit(0);
})().catch(error => { console.error(error); process.exit(1); });
