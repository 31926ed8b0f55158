// Frames of a board, as a reflector sends them.

const word = number => { const bytes = Buffer.alloc(4); bytes.writeUInt32BE(number); return bytes; };
const long = number => { const bytes = Buffer.alloc(8); bytes.writeBigUInt64BE(BigInt(number)); return bytes; };
const text = characters => Buffer.concat([word(Buffer.byteLength(characters)), Buffer.from(characters)]);

function value(item) {
  if (Array.isArray(item)) return Buffer.concat([Buffer.from([6]), word(item.length), ...item.map(value)]);
  return Buffer.concat([Buffer.from([3]), long(item)]);
}

/** A Sync whole, by entry `joined` of which `last` is the last number of the view. */
export const sync = (joined = 1, last = 0) => Buffer.concat([Buffer.from([65]), word(joined), word(last), word(0), Buffer.from([0])]);
export const tick = time => Buffer.concat([Buffer.from([67]), long(time)]);

const entry = (seq, time, view, rest) => Buffer.concat([Buffer.from([66]), word(seq), long(time), word(view), rest]);
export const joined = (seq, time, view) => entry(seq, time, view, Buffer.from([1]));

export function drawn(seq, time, view, number, event, item) {
  const payload = Buffer.concat([text("board"), text(event), value(item)]);
  return entry(seq, time, view, Buffer.concat([Buffer.from([3]), word(number), word(payload.length), payload]));
}

/** A board of so many strokes of view 5, 20 milliseconds apart. */
export function board(count) {
  const frames = [sync(), joined(1, 1, 5)];
  for (let number = 1; number <= count; number++) {
    const points = [number * 7 % 800, number * 13 % 450, number * 11 % 800, number * 17 % 450];
    frames.push(drawn(number + 1, 20000 * number, 5, number, "draw", points));
  }
  frames.push(tick(20000 * count + 1));
  return frames;
}

// By itself it writes a board's frames to a file, each after its length: node frames.mjs COUNT FILE
if (process.argv[1] === new URL(import.meta.url).pathname) {
  const { writeFileSync } = await import("node:fs");
  const [count, file] = process.argv.slice(2);
  writeFileSync(file, Buffer.concat(board(Number(count)).flatMap(frame => [word(frame.length), frame])));
}
