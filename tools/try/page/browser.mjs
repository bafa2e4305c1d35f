// Chromium without a window, driven over a pipe.
import { spawn } from "node:child_process";

const PIPES = ["ignore", "ignore", "ignore", "pipe", "pipe"];
const SWITCHES = [
  "--headless=new", "--remote-debugging-pipe", "--no-first-run", "--disable-gpu", "--disable-background-networking",
  "--disable-component-update", "--disable-sync", "--no-default-browser-check", "--hide-scrollbars",
];
const NAMED_KEYS = { Enter: [13, "\r"], Escape: [27, undefined], Backspace: [8, undefined] };
const USUAL_SIZE = [1280, 900];
const PATIENCE = 60_000; // milliseconds

const pause = (milliseconds) => new Promise((resolve) => { setTimeout(resolve, milliseconds); });

export class Browser {
  constructor(folder) {
    const root = process.getuid() === 0 ? ["--no-sandbox"] : []; // its sandbox doesn't serve the administrator
    const words = [...SWITCHES, ...root, `--user-data-dir=${folder}`, "about:blank"];
    this.child = spawn("chromium", words, { stdio: PIPES });
    this.answers = new Map();
    this.pages = new Map();
    this.number = 0;
    let text = "";
    this.child.stdio[4].setEncoding("utf8").on("data", (more) => {
      const messages = (text + more).split("\0");
      text = messages.pop();
      for (const message of messages) this.receive(JSON.parse(message));
    });
  }

  receive({ id, result, error, method, params, sessionId }) {
    if (id === undefined) {
      this.pages.get(sessionId)?.events.push({ method, params });
      return;
    }
    const { resolve, reject } = this.answers.get(id);
    this.answers.delete(id);
    if (error) reject(new Error(error.message));
    else resolve(result);
  }

  send(method, params = {}, sessionId = undefined) {
    const id = ++this.number;
    this.child.stdio[3].write(`${JSON.stringify({ id, method, params, sessionId })}\0`);
    return new Promise((resolve, reject) => { this.answers.set(id, { resolve, reject }); });
  }

  // A new page of this size that shows a file. The prelude is a script that runs before the page's own.
  async open(path, { size: [width, height] = USUAL_SIZE, isPhone = false, prelude = "" } = {}) {
    const { targetId } = await this.send("Target.createTarget", { url: "about:blank" });
    const { sessionId } = await this.send("Target.attachToTarget", { targetId, flatten: true });
    const page = new Page(this, sessionId, targetId);
    this.pages.set(sessionId, page);
    for (const domain of ["Page", "Runtime", "Network", "Log"]) await page.send(`${domain}.enable`);
    await page.send("Emulation.setDeviceMetricsOverride", { width, height, deviceScaleFactor: 1, mobile: isPhone });
    if (isPhone) await page.send("Emulation.setTouchEmulationEnabled", { enabled: true });
    await page.send("Emulation.setFocusEmulationEnabled", { enabled: true });
    await page.send("Page.addScriptToEvaluateOnNewDocument", { source: prelude });
    await page.send("Page.navigate", { url: `file://${path}` });
    await page.until("its script runs", () => page.value("document.querySelectorAll('#screen div').length === 25"));
    return page;
  }

  async close() {
    const ended = new Promise((resolve) => { this.child.on("exit", resolve); });
    await this.send("Browser.close");
    await ended;
  }
}

class Page {
  constructor(browser, sessionId, targetId) {
    Object.assign(this, { browser, sessionId, targetId, events: [] });
  }

  send(method, params) {
    return this.browser.send(method, params, this.sessionId);
  }

  // The value of an expression in the page.
  async value(expression) {
    const how = { expression, returnByValue: true, awaitPromise: true };
    const { result, exceptionDetails } = await this.send("Runtime.evaluate", how);
    if (exceptionDetails) throw new Error(`${expression}: ${exceptionDetails.exception?.description}`);
    return result.value;
  }

  // Waits until it is so; otherwise tells what was waited for.
  async until(what, isSo) {
    for (const end = Date.now() + PATIENCE; Date.now() < end; await pause(5)) if (await isSo()) return;
    throw new Error(`it does not come to this: ${what}; ${this.complaints}`);
  }

  async press(key) {
    const [code, text] = NAMED_KEYS[key] ?? [undefined, key];
    await this.send("Input.dispatchKeyEvent", { type: "keyDown", key, text, windowsVirtualKeyCode: code });
    await this.send("Input.dispatchKeyEvent", { type: "keyUp", key, windowsVirtualKeyCode: code });
  }

  async type(text) {
    for (const character of text) await this.press(character);
  }

  async click(id) {
    await this.value(`document.getElementById("${id}").click()`);
  }

  async select(id, value) {
    const it = `document.getElementById("${id}")`;
    await this.value(`${it}.value = "${value}"; ${it}.dispatchEvent(new Event("change"))`);
  }

  // The addresses of what the page asked for.
  get requests() {
    const asked = this.events.filter(({ method }) => method === "Network.requestWillBeSent");
    return asked.map(({ params }) => params.request.url);
  }

  // What the browser has to complain of.
  get complaints() {
    return this.events.filter(({ method }) => ["Runtime.exceptionThrown", "Log.entryAdded"].includes(method))
      .map(({ params }) => params.exceptionDetails?.exception?.description ?? params.entry.text);
  }

  async picture([width, height]) {
    const clip = { x: 0, y: 0, width, height, scale: 1 };
    const { data } = await this.send("Page.captureScreenshot", { format: "png", clip });
    return Buffer.from(data, "base64");
  }

  async close() {
    this.browser.pages.delete(this.sessionId);
    await this.browser.send("Target.closeTarget", { targetId: this.targetId });
  }
}
