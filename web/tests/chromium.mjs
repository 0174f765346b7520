// Headless Chromium over its debugging pipe: pages, keys, mouse, fingers. No package is needed.
import { spawn } from "node:child_process";
import { mkdtempSync, rmSync, writeFileSync } from "node:fs";
import { tmpdir } from "node:os";
import { join } from "node:path";

export const sleep = ms => new Promise(done => setTimeout(done, ms));

export class Chromium {
  /** With words in front, as those that run it at another host, and flags of its own. */
  constructor(front = [], flags = []) {
    const [program, ...words] = [...front, process.env.CHROMIUM || "chromium"];
    this.dir = mkdtempSync(join(tmpdir(), "pazgrot-"));
    this.process = spawn(program, [...words, "--headless=new", "--no-sandbox", "--disable-gpu", "--remote-debugging-pipe", "--user-data-dir=" + this.dir, "--hide-scrollbars",
      "--disable-renderer-backgrounding", "--disable-background-timer-throttling", "--disable-backgrounding-occluded-windows", "--no-first-run", ...flags, "about:blank"], { stdio: ["ignore", "ignore", "ignore", "pipe", "pipe"] });
    this.number = 0;
    this.waiting = new Map();
    this.events = [];
    let left = "";
    this.process.stdio[4].on("data", piece => {
      left += piece;
      for (let at = left.indexOf("\0"); at >= 0; at = left.indexOf("\0")) { this.came(JSON.parse(left.slice(0, at))); left = left.slice(at + 1); }
    });
  }
  came(said) {
    if (!said.id) return void this.events.push(said);
    const { done, bad } = this.waiting.get(said.id);
    this.waiting.delete(said.id);
    if (said.error) bad(new Error(JSON.stringify(said.error)));
    else done(said.result);
  }
  call(method, params = {}, sessionId = undefined) {
    return new Promise((done, bad) => {
      this.waiting.set(++this.number, { done, bad });
      this.process.stdio[3].write(JSON.stringify({ id: this.number, method, params, sessionId }) + "\0");
    });
  }
  async open(url, width = 1000, height = 640, more = {}) {
    const page = new Page(this), { targetId } = await this.call("Target.createTarget", { url: "about:blank", newWindow: true });
    page.session = (await this.call("Target.attachToTarget", { targetId, flatten: true })).sessionId;
    await page.call("Emulation.setDeviceMetricsOverride", { width, height, deviceScaleFactor: 1, mobile: false });
    if (more.features) await page.call("Emulation.setEmulatedMedia", { features: more.features });
    for (const domain of ["Runtime", "Page", "Log"]) await page.call(domain + ".enable");
    await page.call("Page.navigate", { url });
    await page.until("typeof pazgrot !== 'undefined'");
    return page;
  }
  /** A tab that is opened by another, with a copy of what that one keeps. */
  async copy(page) {
    const known = async () => (await this.call("Target.getTargets")).targetInfos.filter(t => t.type === "page").map(t => t.targetId), before = await known();
    await page.call("Runtime.evaluate", { expression: "window.open(location.href)", userGesture: true });
    let targetId;
    for (let k = 0; k < 100 && !targetId; k++) { await sleep(50); targetId = (await known()).find(t => !before.includes(t)); }
    const copy = new Page(this);
    copy.session = (await this.call("Target.attachToTarget", { targetId, flatten: true })).sessionId;
    for (const domain of ["Runtime", "Log"]) await copy.call(domain + ".enable");
    await copy.until("typeof pazgrot !== 'undefined'");
    return copy;
  }
  /** Errors in pages, but that a server is away, and that a header is for trusted pages alone. */
  errors() { return this.events.filter(e => e.method === "Runtime.exceptionThrown" || e.method === "Log.entryAdded" && e.params.entry.level === "error" && !/ERR_CONNECTION_REFUSED|WebSocket connection|Opener-Policy header has been ignored/.test(e.params.entry.text)); }
  async close() {
    const ended = new Promise(done => this.process.once("exit", done));
    await this.call("Browser.close");
    await ended;
    await sleep(300);
    rmSync(this.dir, { recursive: true, force: true, maxRetries: 10, retryDelay: 100 });
  }
}

const CODES = { Enter: 13, Escape: 27, Delete: 46, ArrowLeft: 37, ArrowUp: 38, ArrowRight: 39, ArrowDown: 40, Tab: 9 };

export class Page {
  constructor(chromium) { this.chromium = chromium; }
  call(method, params) { return this.chromium.call(method, params, this.session); }
  async js(expression) {
    const { result, exceptionDetails } = await this.call("Runtime.evaluate", { expression, awaitPromise: true, returnByValue: true });
    if (exceptionDetails) throw new Error(expression + "\n" + JSON.stringify(exceptionDetails).slice(0, 600));
    return result.value;
  }
  async until(expression, ms = 30000) {
    for (let t = 0; t < ms; t += 50) { if (await this.js(expression).catch(() => false)) return; await sleep(50); }
    throw new Error(`not so in time: ${expression}; ${await this.js("document.getElementById('say').textContent").catch(() => "")}`);
  }
  mouse(type, x, y, more = {}) { return this.call("Input.dispatchMouseEvent", { type, x, y, button: "left", buttons: type === "mouseReleased" ? 0 : 1, clickCount: 1, ...more }); }
  async stroke(points) {
    await this.mouse("mousePressed", ...points[0]);
    for (const p of points.slice(1)) await this.mouse("mouseMoved", ...p);
    await this.mouse("mouseReleased", ...points[points.length - 1]);
  }
  async click(x, y) { await this.mouse("mouseMoved", x, y, { buttons: 0 }); await this.stroke([[x, y]]); }
  touch(type, points) { return this.call("Input.dispatchTouchEvent", { type, touchPoints: points.map(([x, y], id) => ({ x, y, id })) }); }
  async key(key, modifiers = 0) {
    const code = key.length === 1 ? key.toUpperCase().charCodeAt(0) : CODES[key] || 0, text = modifiers & 2 ? undefined : key.length === 1 ? key : key === "Enter" ? "\r" : undefined;
    const params = { key, modifiers, windowsVirtualKeyCode: code };
    await this.call("Input.dispatchKeyEvent", { type: "keyDown", ...params, text });
    await this.call("Input.dispatchKeyEvent", { type: "keyUp", ...params });
  }
  async drop(file, x, y) {
    for (const type of ["dragEnter", "dragOver", "drop"]) await this.call("Input.dispatchDragEvent", { type, x, y, data: { items: [], files: [file], dragOperationsMask: 1 } });
  }
  async shot(file) { writeFileSync(file, Buffer.from((await this.call("Page.captureScreenshot", { format: "png" })).data, "base64")); }
  /** The middle of a cell, in pixels. */
  at(x, y) { return this.js(`(() => { const { left, top } = document.getElementById("c").getBoundingClientRect(), v = pazgrot.view; return [left + (${x} + .5 - v.x) * v.zoom, top + (${y} + .5 - v.y) * v.zoom]; })()`); }
  look(x, y, zoom) { return this.js(`pazgrot.view.centre(${x}, ${y}, ${zoom})`); }
  cells() { return this.js("JSON.stringify(pazgrot.board.plane.cells())"); }
  said() { return this.js("document.getElementById('say').textContent"); }
  settled() { return this.until("pazgrot.board.state === 'open' && pazgrot.board.pending.length === 0"); }
}
