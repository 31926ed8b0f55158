// A reflector in plain JavaScript, to compare with: node stamp.js SCRIPT [LOG]. It prints what `croquet stamp` prints for joins, sends, ticks and
// leaves, and writes the same log, where no time passes after the last entry. It has no limits, no snapshots and no batches, and takes its script as it is.
const { readFileSync, writeFileSync } = require("fs");
const END = 2 ** 53 - 4096;
const [script, file] = process.argv.slice(2);
const views = new Map(), entries = [], out = [];
let horizon = 0, seq = 0;

const view_of = number => {
  if (!views.has(number)) views.set(number, { current: 0, here: false, events: [] });
  return views.get(number);
};
const stamp = now => (horizon = Math.max(Math.min(now, END), horizon + 1));
const note = (time, number, kind, event) => entries.push({ time, number, kind, event });
const is_stale = (view, joined) => view.current !== joined || !view.here;

function join(number, now) {
  const view = view_of(number), time = stamp(now);
  note(time, number, 1);
  view.current = ++seq;
  view.here = true;
  return `joined ${seq} ${time} ${view.events.length} 0`;
}

function send(number, joined, place, now, payload) {
  const view = view_of(number);
  if (is_stale(view, joined)) return `refused stale ${view.current}`;
  const sent = view.events[place - 1];
  if (place > 0 && sent) return sent.payload === payload ? `again ${sent.seq} ${sent.time}` : `refused differs ${sent.seq}`;
  if (place !== view.events.length + 1) return `refused gap ${view.events.length + 1}`;
  const time = stamp(now);
  const event = { place, payload, seq: ++seq, time };
  view.events.push(event);
  note(time, number, 3, event);
  return `stamped ${seq} ${time}`;
}

function leave(number, joined, now) {
  const view = view_of(number);
  if (is_stale(view, joined)) return `refused stale ${view.current}`;
  const time = stamp(now);
  note(time, number, 2);
  view.current = ++seq;
  view.here = false;
  return `left ${seq} ${time}`;
}

function tick(now) {
  horizon = Math.max(horizon, Math.min(now, END));
  return `ticked ${horizon}`;
}

function spelling() {
  const bytes = entries.reduce((sum, { event }) => sum + 13 + (event ? 8 + event.payload.length / 2 : 0), 12);
  const log = Buffer.alloc(bytes);
  let at = log.write("TEALOG01");
  at = log.writeUInt32BE(entries.length, at);
  for (const { time, number, kind, event } of entries) {
    at = log.writeBigUInt64BE(BigInt(time), at);
    at = log.writeUInt32BE(number, at);
    at = log.writeUInt8(kind, at);
    if (!event) continue;
    at = log.writeUInt32BE(event.place, at);
    at = log.writeUInt32BE(event.payload.length / 2, at);
    at += log.write(event.payload, at, "hex");
  }
  return log;
}

const calls = { join: (v, t) => join(+v, +t), tick: t => tick(+t), leave: (v, c, t) => leave(+v, +c, +t),
  send: (v, c, k, t, payload) => send(+v, +c, +k, +t, payload === "-" ? "" : payload) };
for (const line of readFileSync(script, "utf8").split("\n")) {
  if (line === "" || line.startsWith("#")) continue;
  const [word, ...rest] = line.split(/ +/);
  out.push(calls[word](...rest));
}
if (file) writeFileSync(file, spelling());
process.stdout.write(out.join("\n") + "\n");
