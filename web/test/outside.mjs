// What pages meet: a file server, the native program as reflector, view and replay, and a proxy that cuts links.
import { execFileSync, spawn } from "node:child_process";
import { readFileSync } from "node:fs";
import { readFile } from "node:fs/promises";
import { createServer } from "node:http";
import { connect, createServer as createProxy } from "node:net";
import { join } from "node:path";

const TYPES = { html: "text/html", js: "text/javascript", mjs: "text/javascript", wasm: "application/wasm", program: "text/plain" };
export const top = new URL("../..", import.meta.url).pathname;
export const sleep = time => new Promise(done => setTimeout(done, time));

/** Listens at a port that is free, and gives its number. */
export async function listening(server) {
  await new Promise(done => server.listen(0, "127.0.0.1", done));
  return server.address().port;
}

async function answer(request, reply) {
  const path = join(top, decodeURIComponent(new URL(request.url, "http://x").pathname));
  try {
    const bytes = await readFile(path);
    reply.setHeader("content-type", TYPES[path.split(".").pop()] ?? "application/octet-stream");
    reply.end(bytes);
  } catch {
    reply.statusCode = 404;
    reply.end();
  }
}

/** Serves the files of this repository. */
export const fileServer = () => createServer(answer);

/** A proxy before a reflector, which cuts the links that it has. */
export function proxyTo(port) {
  const links = new Set();
  const server = createProxy(near => {
    const far = connect(port, "127.0.0.1");
    for (const [one, other] of [[near, far], [far, near]]) {
      links.add(one);
      one.on("error", () => other.destroy());
      one.on("close", () => { links.delete(one); other.destroy(); });
      one.pipe(other);
    }
  });
  return { server, cut: () => links.forEach(link => link.destroy()) };
}

/** One session of the native program, whose files are in a folder. */
export class Native {
  constructor(croquet, program, folder, log) {
    this.croquet = croquet;
    this.program = program;
    this.folder = folder;
    this.log = join(folder, log);
  }

  /** A reflector that listens. */
  async reflect(port, links) {
    const words = ["reflect", this.program, "board", `127.0.0.1:${port}`, "--connections", String(links), "--log", this.log];
    this.reflector = spawn(this.croquet, words, { stdio: ["ignore", "inherit", "pipe"] });
    await new Promise((done, failed) => {
      this.reflector.stderr.on("data", data => { if (/listening/.test(data)) done(); });
      this.reflector.on("exit", status => failed(new Error(`the reflector ended with ${status}`)));
    });
    this.port = port;
  }

  /** A view that takes lines: `say` tells it some, and `leave` gives what it has printed once it has left. */
  view(number) {
    const words = ["join", this.program, "board", `127.0.0.1:${this.port}`, String(number), "-"];
    const child = spawn(this.croquet, words, { stdio: ["pipe", "pipe", "inherit"] });
    let text = "";
    child.stdout.on("data", data => { text += data; });
    const ended = new Promise((done, failed) => {
      child.on("close", status => status ? failed(new Error(`view ${number} ended with ${status}: ${text}`)) : done(text));
    });
    ended.catch(() => {});
    return { say: lines => child.stdin.write(lines), leave: () => { child.stdin.end(); return ended; } };
  }

  // The reflector ends once all its links have ended: those that are left come and go.
  async spendLinks() {
    while (this.reflector.exitCode === null) {
      connect(this.port, "127.0.0.1").on("error", () => {}).on("connect", function () { this.destroy(); });
      await sleep(200);
    }
    return this.reflector.exitCode;
  }

  /** The status with which the reflector ended, or "late". */
  ended() {
    return Promise.race([this.spendLinks(), sleep(30000).then(() => "late")]);
  }

  /** The digest of the world that the log makes at this time. */
  replayed(time) {
    const text = execFileSync(this.croquet, ["replay", this.program, "board", this.log, String(time)], { encoding: "utf8" });
    return /digest (\w+)/.exec(text)[1];
  }

  /** The digest of the one vote that is in the log. */
  voted() {
    return /#vote.*?digest.*?([0-9a-f]{64})/s.exec(readFileSync(this.log, "latin1"))?.[1];
  }

  close() { this.reflector?.kill(); }
}
