// Chromium without a window, by its DevTools protocol over a pipe: messages of JSON, each ended by a zero byte.

import { spawn } from "node:child_process";
import { mkdtempSync, rmSync } from "node:fs";
import { tmpdir } from "node:os";
import { join } from "node:path";
import { setTimeout as sleep } from "node:timers/promises";

const FLAGS = [
  "--headless=new", "--remote-debugging-pipe", "--no-first-run", "--disable-gpu", "--disable-dev-shm-usage", "--disable-extensions",
  "--disable-background-networking", "--hide-scrollbars", "--force-color-profile=srgb",
];

// Asks again and again until the answer is one, or the time is over.
export async function until(what, question, milliseconds = 10_000) {
  const end = Date.now() + milliseconds;
  for (;;) {
    const answer = await question();
    if (answer) return answer;
    if (Date.now() > end) throw new Error(`waited in vain: ${what}`);
    await sleep(20);
  }
}

export class Browser {
  // `program` is Chromium's. What is started here is ended by `close`, and with this process.
  constructor(program) {
    this.folder = mkdtempSync(join(tmpdir(), "table-"));
    // Chromium's own sandbox does not start for the superuser.
    const root = process.getuid() === 0 ? ["--no-sandbox"] : [];
    const stdio = ["ignore", "ignore", "ignore", "pipe", "pipe"];
    this.child = spawn(program, [...FLAGS, ...root, `--user-data-dir=${this.folder}`, "about:blank"], { stdio });
    this.ended = new Promise((resolve) => this.child.once("exit", resolve));
    process.once("exit", () => this.child.kill("SIGKILL"));
    this.calls = new Map();
    this.last = 0;
    let text = "";
    this.child.stdio[4].setEncoding("utf8").on("data", (part) => {
      const whole = (text + part).split("\0");
      text = whole.pop();
      for (const message of whole) this.hear(JSON.parse(message));
    });
  }

  hear({ id, result, error }) {
    const call = this.calls.get(id);
    this.calls.delete(id);
    if (error) call?.reject(new Error(error.message));
    else call?.resolve(result);
  }

  send(method, params = {}, sessionId = undefined) {
    const id = (this.last += 1);
    this.child.stdio[3].write(`${JSON.stringify({ id, method, params, sessionId })}\0`);
    return new Promise((resolve, reject) => this.calls.set(id, { resolve, reject }));
  }

  // A page of its own window, so that none of them is in the background.
  async open(url, width = 1240, height = 960, mobile = false) {
    const { targetId } = await this.send("Target.createTarget", { url: "about:blank", newWindow: true });
    const { sessionId } = await this.send("Target.attachToTarget", { targetId, flatten: true });
    const page = new Page(this, sessionId);
    await page.send("Emulation.setDeviceMetricsOverride", { width, height, deviceScaleFactor: 1, mobile });
    await page.send("Page.navigate", { url });
    return page;
  }

  async close() {
    await Promise.race([this.send("Browser.close"), this.ended]).catch(() => undefined);
    await Promise.race([this.ended, sleep(3000)]);
    this.child.kill("SIGKILL");
    await this.ended;
    rmSync(this.folder, { recursive: true, force: true, maxRetries: 5 });
  }
}

class Page {
  constructor(browser, session) {
    this.browser = browser;
    this.session = session;
  }

  send(method, params) {
    return this.browser.send(method, params, this.session);
  }

  // What an expression of the page's script gives.
  async value(expression) {
    const params = { expression, returnByValue: true, awaitPromise: true };
    const { result, exceptionDetails } = await this.send("Runtime.evaluate", params);
    if (exceptionDetails) throw new Error(`${expression}: ${exceptionDetails.exception?.description ?? exceptionDetails.text}`);
    return result.value;
  }

  // A click of the mouse at a place of the window.
  async click(x, y) {
    const params = { x, y, button: "left", clickCount: 1 };
    await this.send("Input.dispatchMouseEvent", { type: "mousePressed", ...params });
    await this.send("Input.dispatchMouseEvent", { type: "mouseReleased", ...params });
  }

  async screenshot() {
    const { data } = await this.send("Page.captureScreenshot", { format: "png" });
    return Buffer.from(data, "base64");
  }
}
