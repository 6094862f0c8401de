// A headless browser, driven by the DevTools protocol over a pipe, and a server of files: what tests of pages need,
// without a package.
import { spawn } from "node:child_process";
import fs from "node:fs";
import http from "node:http";
import os from "node:os";
import path from "node:path";

const TYPES = {
  ".html": "text/html",
  ".css": "text/css",
  ".mjs": "text/javascript",
  ".wasm": "application/wasm",
  ".svg": "image/svg+xml",
  ".txt": "text/plain"
};

// Keys that browsers know by a number.
const KEY_CODES = { Tab: 9, Enter: 13, " ": 32, ArrowLeft: 37, ArrowUp: 38, ArrowRight: 39, ArrowDown: 40 };

/** Serves a folder on this machine; its address, and what ends it. What is posted is handed on. */
export async function serve(folder, onReport = () => {}) {
  const server = http.createServer((request, response) => {
    if (request.method === "POST") {
      let text = "";
      request.setEncoding("utf8").on("data", (it) => (text += it)).on("end", () => (response.end(), onReport(text)));
      return;
    }
    const place = path.join(folder, path.normalize(decodeURIComponent(new URL(request.url, "http://x").pathname)));
    const file = place.endsWith(path.sep) ? path.join(place, "index.html") : place;
    fs.readFile(file, (error, content) => {
      response.writeHead(
        error ? 404 : 200, { "content-type": TYPES[path.extname(file)] ?? "application/octet-stream" }
      );
      response.end(content);
    });
  });
  await new Promise((resolve) => server.listen(0, "127.0.0.1", resolve));
  return { address: `http://127.0.0.1:${server.address().port}/`, close: () => server.close() };
}

/** A page of a browser. */
export class Page {
  #process;
  #folder;
  #waiting = new Map();
  #listeners = [];
  #last = 0;
  #session;
  #rest = "";
  /** What the page said on its console and what failed. */
  messages = [];
  /** The places that were asked for. */
  requests = [];

  /** Starts a browser with one empty page. */
  static async open(program, size = [1000, 900]) {
    const page = new Page();
    page.#folder = fs.mkdtempSync(path.join(os.tmpdir(), "browser-"));
    const flags = [
      "--headless=new",
      "--no-sandbox",
      "--disable-gpu",
      "--disable-dev-shm-usage",
      "--no-first-run",
      "--disable-background-networking"
    ];
    const places = [`--user-data-dir=${page.#folder}`, `--window-size=${size}`, "about:blank"];
    page.#process = spawn(program, [...flags, "--remote-debugging-pipe", ...places], {
      stdio: ["ignore", "ignore", "ignore", "pipe", "pipe"],
    });
    page.#process.on("exit", () => page.#ended());
    page.#process.on("error", () => page.#ended());
    page.#process.stdio[4].setEncoding("utf8").on("data", (text) => page.#read(text));
    page.#process.stdio[3].on("error", () => {});
    const { targetInfos } = await page.send("Target.getTargets");
    const { targetId } = targetInfos.find((it) => it.type === "page") ?? (
      await page.send("Target.createTarget", { url: "about:blank" })
    );
    page.#session = (await page.send("Target.attachToTarget", { targetId, flatten: true })).sessionId;
    for (const domain of ["Page", "Runtime", "Log", "Network", "DOM", "Accessibility"]) {
      await page.send(`${domain}.enable`);
    }
    page.on(
      "Runtime.consoleAPICalled",
      ({ type, args }) => page.messages.push(`${type}: ${args.map((it) => it.value ?? it.description).join(" ")}`)
    );
    page.on(
      "Runtime.exceptionThrown",
      ({ exceptionDetails: it }) => page.messages.push(`exception: ${it.exception?.description ?? it.text}`)
    );
    page.on("Log.entryAdded", ({ entry }) => page.messages.push(`${entry.level}: ${entry.text} ${entry.url ?? ""}`));
    page.on("Network.requestWillBeSent", ({ request }) => page.requests.push(request.url));
    await page.send(
      "Emulation.setDeviceMetricsOverride", { width: size[0], height: size[1], deviceScaleFactor: 1, mobile: false }
    );
    return page;
  }

  #ended() {
    for (const { reject } of this.#waiting.values()) reject(new Error("the browser has ended"));
    this.#waiting.clear();
  }

  // Messages end with a zero.
  #read(text) {
    const parts = (this.#rest + text).split("\0");
    this.#rest = parts.pop();
    for (const it of parts) {
      const { id, result, error, method, params } = JSON.parse(it);
      if (id === undefined) {
        for (const [name, listener] of this.#listeners) if (name === method) listener(params);
        continue;
      }
      const waiting = this.#waiting.get(id);
      this.#waiting.delete(id);
      if (error) waiting?.reject(new Error(`${waiting.method}: ${error.message}`));
      else waiting?.resolve(result);
    }
  }

  /** Has a listener called at each event of a name. */
  on(name, listener) {
    this.#listeners.push([name, listener]);
  }

  /** Sends a command of the protocol, and gives its result. */
  send(method, params = {}) {
    return new Promise((resolve, reject) => {
      const id = ++this.#last;
      this.#waiting.set(id, { resolve, reject, method });
      this.#process.stdio[3].write(`${JSON.stringify({ id, method, params, sessionId: this.#session })}\0`);
    });
  }

  /** Goes to a place. */
  async go(url) {
    const { errorText } = await this.send("Page.navigate", { url });
    if (errorText) throw new Error(`${url}: ${errorText}`);
  }

  /** The value of an expression in the page; a promise is waited for. */
  async value(expression) {
    const { result, exceptionDetails } = await this.send(
      "Runtime.evaluate", { expression, awaitPromise: true, returnByValue: true }
    );
    if (exceptionDetails) {
      throw new Error(`${expression}: ${exceptionDetails.exception?.description ?? exceptionDetails.text}`);
    }
    return result.value;
  }

  /** Waits until an expression is true in the page. */
  async until(expression, seconds = 30) {
    const end = Date.now() + 1000 * seconds;
    while (Date.now() < end) {
      // A page that is being loaded may end the context of a call.
      if (await this.value(expression).catch(() => false)) return;
      await new Promise((resolve) => setTimeout(resolve, 20));
    }
    throw new Error(`not within ${seconds} s: ${expression}; ${this.messages.join("; ")}`);
  }

  /** Clicks in the middle of the element that a selector names. */
  async click(selector) {
    const place = await this.value(`(() => {
      const it = document.querySelector(${JSON.stringify(selector)});
      it.scrollIntoView({ block: "center" });
      const box = it.getBoundingClientRect();
      return { x: box.left + box.width / 2, y: box.top + box.height / 2 };
    })()`);
    for (const type of ["mousePressed", "mouseReleased"]) {
      await this.send("Input.dispatchMouseEvent", { type, button: "left", clickCount: 1, ...place });
    }
  }

  /** Presses a key, in the element that has the focus. */
  async press(key) {
    const more = {
      ...(KEY_CODES[key] && { windowsVirtualKeyCode: KEY_CODES[key] }), ...(key.length === 1 && { text: key })
    };
    await this.send("Input.dispatchKeyEvent", { type: "keyDown", key, code: key, ...more });
    await this.send("Input.dispatchKeyEvent", { type: "keyUp", key, code: key, ...more, text: undefined });
  }

  /** Puts a text into a field as a person would: what stands there is selected and replaced. */
  async type(selector, text) {
    await this.value(
      `(() => { const it = document.querySelector(${JSON.stringify(selector)}); it.focus(); it.select(); })()`
    );
    await this.send("Input.insertText", { text });
  }

  /** Chooses an option of a list. */
  choose(selector, value) {
    return this.value(`(() => {
      const it = document.querySelector(${JSON.stringify(selector)});
      it.value = ${JSON.stringify(value)};
      for (const name of ["input", "change"]) it.dispatchEvent(new Event(name, { bubbles: true }));
      return it.value;
    })()`);
  }

  /** Gives files to a field for files. */
  async give(selector, files) {
    const { root } = await this.send("DOM.getDocument");
    const { nodeId } = await this.send("DOM.querySelector", { nodeId: root.nodeId, selector });
    await this.send("DOM.setFileInputFiles", { nodeId, files });
  }

  /** The text of an element. */
  text(selector) {
    return this.value(`document.querySelector(${JSON.stringify(selector)}).textContent`);
  }

  /** Writes a picture of what is seen. */
  async picture(file) {
    const { data } = await this.send("Page.captureScreenshot", { format: "png" });
    fs.writeFileSync(file, Buffer.from(data, "base64"));
  }

  /** Ends the browser. */
  async close() {
    const ended = new Promise((resolve) => this.#process.once("exit", resolve));
    await this.send("Browser.close").catch(() => {});
    const timer = setTimeout(() => this.#process.kill("SIGKILL"), 5000);
    await ended;
    clearTimeout(timer);
    fs.rmSync(this.#folder, { recursive: true, force: true, maxRetries: 5 });
  }
}
