// Pages in a headless Chromium, over its pipe. It needs the program `chromium` and nothing else.
import { spawn } from "node:child_process";
import { writeFileSync } from "node:fs";

const FLAGS = ["--headless", "--no-sandbox", "--disable-gpu", "--disable-dev-shm-usage", "--hide-scrollbars", "--remote-debugging-pipe"];
const SIZE = { width: 840, height: 600 };
const sleep = time => new Promise(done => setTimeout(done, time));

export class Chromium {
  constructor(folder) {
    this.process = spawn("chromium", [...FLAGS, `--user-data-dir=${folder}`, "about:blank"], { stdio: ["ignore", "ignore", "ignore", "pipe", "pipe"] });
    this.count = 0;
    this.waiting = new Map();
    this.rest = "";
    this.process.stdio[4].on("data", data => this.take(data));
  }

  // Messages are divided by NUL.
  take(data) {
    const parts = (this.rest + data).split("\0");
    this.rest = parts.pop();
    for (const part of parts) this.takeMessage(JSON.parse(part));
  }

  takeMessage({ id, result, error, method, params }) {
    if (method === "Runtime.exceptionThrown") console.error("page:", params.exceptionDetails.exception?.description ?? params.exceptionDetails.text);
    const waits = this.waiting.get(id);
    if (!waits) return;
    this.waiting.delete(id);
    if (error) waits.failed(new Error(JSON.stringify(error)));
    else waits.done(result);
  }

  call(method, params = {}, sessionId = undefined) {
    const id = ++this.count;
    this.process.stdio[3].write(JSON.stringify({ id, method, params, sessionId }) + "\0");
    return new Promise((done, failed) => this.waiting.set(id, { done, failed }));
  }

  async open(address) {
    const { targetId } = await this.call("Target.createTarget", { url: "about:blank", newWindow: true, ...SIZE });
    const { sessionId } = await this.call("Target.attachToTarget", { targetId, flatten: true });
    const tab = new Tab(this, sessionId);
    for (const domain of ["Runtime", "Page"]) await tab.call(`${domain}.enable`);
    await tab.call("Emulation.setDeviceMetricsOverride", { ...SIZE, deviceScaleFactor: 1, mobile: false });
    await tab.go(address);
    return tab;
  }

  close() { this.process.kill(); }
}

class Tab {
  constructor(browser, id) {
    this.browser = browser;
    this.id = id;
  }

  call(method, params) { return this.browser.call(method, params, this.id); }

  go(address) { return this.call("Page.navigate", { url: address }); }

  /** What an expression of the page gives. */
  async run(expression) {
    const { result, exceptionDetails } = await this.call("Runtime.evaluate", { expression, returnByValue: true, awaitPromise: true });
    if (exceptionDetails) throw new Error(`${expression}: ${exceptionDetails.exception?.description ?? exceptionDetails.text}`);
    return result.value;
  }

  async until(expression, time = 60000) {
    for (let waited = 0; waited < time; waited += 100) {
      if (await this.run(expression).catch(() => false)) return;
      await sleep(100);
    }
    throw new Error(`never: ${expression}; the page says ${await this.run("document.getElementById('state')?.textContent")}`);
  }

  /** Draws with the mouse on the element of this name. `midst` is done in the midst of it. */
  async drag(name, points, midst = () => {}) {
    const { x, y } = await this.run(`(({ x, y }) => ({ x, y }))(document.getElementById(${JSON.stringify(name)}).getBoundingClientRect())`);
    const mouse = (type, [right, down]) => this.call("Input.dispatchMouseEvent", { type, x: x + right, y: y + down, button: "left", buttons: type === "mouseReleased" ? 0 : 1, clickCount: 1 });
    await mouse("mousePressed", points[0]);
    for (const [index, point] of points.entries()) {
      if (index === points.length >> 1) await midst();
      await mouse("mouseMoved", point);
    }
    await mouse("mouseReleased", points.at(-1));
  }

  async picture(file) {
    const { data } = await this.call("Page.captureScreenshot", { format: "png" });
    writeFileSync(file, Buffer.from(data, "base64"));
  }
}
