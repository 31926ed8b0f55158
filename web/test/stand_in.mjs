// A module and sockets made for tests of what croquet.js does with the answers of a page.
//
// `answer` is asked of each step: it gets the kind and the text of the bytes, and gives what the page answers: { text, frames, want, status, end, code, here }.

const TOLD = { time: 0n, unacknowledged: 0n, kept: 0n, seen: 0, status: 0, want: 0, end: 0, code: 0, here: false, text: "", frames: [] };

export class StandIn {
  constructor(answer, world = "") {
    this.answer = answer;
    this.worldText = world;
    this.memory = { buffer: new ArrayBuffer(1 << 20) };
    this.top = 64;
    this.told = TOLD;
    this.isClosed = false;
    for (const name of ["room", "free", "seat", "open", "step", "world", "text", "frame", "close"]) this[`page_${name}`] = this[name].bind(this);
  }
  room(size) {
    const at = this.top;
    this.top += Number(size) + 15 & ~15;
    return BigInt(at);
  }
  free() {}
  seat() { return 0; }
  open() { return 0; }
  bytes(at, size) { return new Uint8Array(this.memory.buffer, Number(at), Number(size)); }
  step(handle, kind, at, size, place) {
    if (this.isClosed) throw new Error("a page that was closed got a step");
    this.told = { ...TOLD, ...this.answer(kind, Buffer.from(this.bytes(at, size)).toString()) };
    this.write(place);
  }
  world(handle, place) {
    this.told = { ...TOLD, text: this.worldText };
    this.write(place);
  }
  write(place) {
    const view = new DataView(this.memory.buffer, Number(place), 64), { told } = this;
    [told.time, BigInt(Buffer.byteLength(told.text)), BigInt(told.frames.length), told.unacknowledged, told.kept].forEach((number, index) => view.setBigUint64(8 * index, number, true));
    [told.seen, told.status, told.want, told.end, told.code, told.here ? 1 : 0].forEach((number, index) => view.setUint32(40 + 4 * index, number, true));
  }
  copy(text, at, size) {
    const bytes = Buffer.from(text);
    this.bytes(at, size).set(bytes.subarray(0, Number(size)));
    return BigInt(bytes.length);
  }
  text(handle, at, size) { return this.copy(this.told.text, at, size); }
  frame(handle, index, at, size) { return this.copy(this.told.frames[index], at, size); }
  close() { this.isClosed = true; }
}

export class StandInSocket {
  static all = [];
  constructor() {
    this.readyState = 0;
    this.sent = [];
    StandInSocket.all.push(this);
  }
  open() { this.readyState = 1; this.onopen(); }
  say(text) { this.onmessage({ data: new TextEncoder().encode(text).buffer }); }
  send(frame) { this.sent.push(Buffer.from(frame).toString()); }
  close() {
    if (this.readyState === 3) return;
    this.readyState = 3;
    setTimeout(() => this.onclose());
  }
}
