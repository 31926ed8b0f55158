// A reflector in plain JavaScript over node-ws, to compare with: node plain_reflector.js PORT. It stamps events, hands on entries and ticks, and keeps
// its log in memory. It has no limits, no snapshots, no ids and no checks, and serves any number of connections until it is killed.
const WebSocket = require("/usr/share/nodejs/ws");
const [port] = process.argv.slice(2);
const TICK_MILLISECONDS = 50;
const BATCH = 1000;
const begun = process.hrtime.bigint();
const log = [], views = new Map(), links = new Set();
let horizon = 0;

const frame_of = (tag, ...parts) => {
  const bytes = Buffer.alloc(1 + parts.reduce((sum, [, size]) => sum + size, 0));
  let at = bytes.writeUInt8(tag, 0);
  for (const [value, size] of parts) {
    if (size === 8) at = bytes.writeBigUInt64BE(BigInt(value), at);
    else if (size === 4) at = bytes.writeUInt32BE(value, at);
    else at = bytes.writeUInt8(value, at);
  }
  return bytes;
};
const now = () => Number((process.hrtime.bigint() - begun) / 1000n);
const stamp = () => (horizon = Math.max(now(), horizon + 1));

function note(view, kind, number, payload) {
  const time = stamp(), seq = log.length + 1;
  const entry = frame_of(66, [seq, 4], [time, 8], [view, 4], [kind, 1]);
  const event = kind === 3 ? [entry, frame_of(0, [number, 4], [payload.length, 4]).subarray(1), payload] : [entry];
  log.push(Buffer.concat(event));
  for (const link of links) hand_on(link);
  return { seq, time };
}

// Sends what the link lacks, and leaves the rest for later where much waits to be sent already.
function hand_on(link) {
  while (link.seen < log.length && link.bufferedAmount < 1 << 20) {
    const until = Math.min(log.length, link.seen + BATCH);
    while (link.seen < until) link.send(log[link.seen++]);
  }
}

function join(link, view) {
  const last = views.get(view) || 0;
  views.set(view, last);
  link.view = view;
  const { seq } = note(view, 1);
  link.send(frame_of(65, [seq, 4], [last, 4], [0, 4], [0, 1]));
  link.seen = 0;
  links.add(link);
  hand_on(link);
}

function take(link, bytes) {
  const tag = bytes[0];
  if (tag === 1) join(link, bytes.readUInt32BE(33));
  if (tag === 2) {
    const number = bytes.readUInt32BE(1);
    views.set(link.view, number);
    const { seq, time } = note(link.view, 3, number, bytes.subarray(9));
    link.send(frame_of(68, [number, 4], [seq, 4], [time, 8]));
  }
  if (tag === 5) link.send(frame_of(71));
  if (tag === 4) link.close();
}

function tick() {
  horizon = Math.max(now(), horizon);
  const bytes = frame_of(67, [horizon, 8]);
  for (const link of links) {
    hand_on(link);
    if (link.seen === log.length) link.send(bytes);
  }
}

new WebSocket.Server({ port: Number(port), host: "127.0.0.1", perMessageDeflate: false }, () => setInterval(tick, TICK_MILLISECONDS))
  .on("connection", link => {
    link._socket.setNoDelay(true);
    link.on("message", bytes => take(link, bytes));
    link.on("close", () => links.delete(link) && note(link.view, 2));
  });
