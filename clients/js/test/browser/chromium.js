/** Starts a headless Chromium, opens pages in it, and has them compute. */

import { spawn } from "node:child_process";
import { once } from "node:events";
import { mkdtemp, rm } from "node:fs/promises";
import { tmpdir } from "node:os";
import { join } from "node:path";

/** What a start, a page's load and an answer may take. */
const MILLISECONDS = 60_000;

const FLAGS = [
  "--headless=new",
  "--no-sandbox",
  "--disable-gpu",
  "--disable-dev-shm-usage",
  "--no-first-run",
  "--disable-breakpad",
  "--disable-background-networking",
  "--disable-component-update",
  "--disable-background-timer-throttling",
  "--disable-backgrounding-occluded-windows",
  "--disable-renderer-backgrounding",
];

/** Rejects where the promise takes longer. */
export async function inTime(what, promise, milliseconds = MILLISECONDS) {
  let timer;
  const late = new Promise((_, reject) => {
    timer = setTimeout(() => reject(new Error(`${what} took more than ${milliseconds} ms`)), milliseconds);
  });
  try {
    return await Promise.race([promise, late]);
  } finally {
    clearTimeout(timer);
  }
}

/** The DevTools protocol over a pair of pipes: JSON texts, each ended by NUL. It ends with the pipe. */
class DevTools {
  #to;
  #calls = new Map();
  #listeners = new Set();
  #last = 0;
  #rest = [];

  constructor(to, from) {
    this.#to = to;
    from.on("data", (piece) => this.#take(piece));
    from.on("close", () => this.#end());
    to.on("error", () => this.#end());
  }

  #take(piece) {
    let begin = 0;
    for (let end = piece.indexOf(0); end >= 0; end = piece.indexOf(0, begin)) {
      const text = Buffer.concat([...this.#rest, piece.subarray(begin, end)]).toString();
      this.#rest = [];
      begin = end + 1;
      this.#receive(JSON.parse(text));
    }
    this.#rest.push(piece.subarray(begin));
  }

  #receive(message) {
    const call = this.#calls.get(message.id);
    this.#calls.delete(message.id);
    if (!call) {
      this.#listeners.forEach((it) => it(message));
    } else if (message.error) {
      call.reject(new Error(`${call.method}: ${message.error.message}`));
    } else {
      call.resolve(message.result);
    }
  }

  #end() {
    for (const { method, reject } of this.#calls.values()) {
      reject(new Error(`${method}: the browser ended`));
    }
    this.#calls.clear();
  }

  /** Calls a method, of a page where its session is given. */
  call(method, params = {}, sessionId = undefined) {
    this.#last += 1;
    this.#to.write(`${JSON.stringify({ id: this.#last, method, params, sessionId })}\0`);
    return new Promise((resolve, reject) => this.#calls.set(this.#last, { method, resolve, reject }));
  }

  /** Has each event given to the listener. */
  listen(listener) {
    this.#listeners.add(listener);
  }
}

/** A page of the browser. `faults` are the errors that nobody caught in it. */
class Page {
  #devTools;
  #session;
  #target;

  constructor(devTools, session, target) {
    this.#devTools = devTools;
    this.#session = session;
    this.#target = target;
    this.faults = [];
    devTools.listen(({ method, params, sessionId }) => {
      if (sessionId === session && method === "Runtime.exceptionThrown") {
        const { text, exception } = params.exceptionDetails;
        this.faults.push(`${text} ${exception?.description ?? ""}`);
      }
    });
  }

  /** The JSON value of this expression, or what its promise is fulfilled with. */
  async evaluate(expression, milliseconds = MILLISECONDS) {
    const params = { expression, awaitPromise: true, returnByValue: true };
    const called = this.#devTools.call("Runtime.evaluate", params, this.#session);
    const { result, exceptionDetails } = await inTime("the page's answer", called, milliseconds);
    if (exceptionDetails) {
      throw new Error(exceptionDetails.exception?.description ?? exceptionDetails.text);
    }
    return result.value;
  }

  /** Calls a method of the DevTools protocol on it. */
  call(method, params = {}) {
    return this.#devTools.call(method, params, this.#session);
  }

  /** Has each event of its session given to the listener. */
  listen(listener) {
    this.#devTools.listen((event) => event.sessionId === this.#session && listener(event));
  }

  /** Closes it, as a user closes a tab. */
  async close() {
    await this.#devTools.call("Target.closeTarget", { targetId: this.#target });
  }

  /** Goes to this URL, and returns once the page has been loaded. */
  async go(url) {
    const loaded = new Promise((resolve) => {
      this.#devTools.listen(({ method, sessionId }) => {
        if (sessionId === this.#session && method === "Page.loadEventFired") {
          resolve();
        }
      });
    });
    const { errorText } = await this.#devTools.call("Page.navigate", { url }, this.#session);
    if (errorText) {
      throw new Error(`${url}: ${errorText}`);
    }
    await inTime(`loading ${url}`, loaded);
  }
}

/** A running browser. */
export class Chromium {
  #child;
  #folder;
  #devTools;
  #words = "";

  /** Starts it, with a profile of its own, and with further flags. */
  static async start({ command = process.env.CHROMIUM ?? "chromium", flags = [] } = {}) {
    const made = new Chromium();
    await made.#begin(command, flags);
    return made;
  }

  async #begin(command, flags) {
    this.#folder = await mkdtemp(join(tmpdir(), "weblocks-chromium-"));
    const words = [...FLAGS, ...flags, "--remote-debugging-pipe", `--user-data-dir=${this.#folder}`, "about:blank"];
    const env = { ...process.env, HOME: this.#folder, XDG_CONFIG_HOME: this.#folder, XDG_CACHE_HOME: this.#folder };
    // (the browser ends by itself when the pipes do, and so with this process)
    this.#child = spawn(command, words, { env, stdio: ["ignore", "ignore", "pipe", "pipe", "pipe"] });
    this.#child.stderr.on("data", (piece) => {
      this.#words = (this.#words + piece).slice(-2000);
    });
    const failed = once(this.#child, "error").then(([why]) => {
      throw why;
    });
    this.#devTools = new DevTools(this.#child.stdio[3], this.#child.stdio[4]);
    try {
      await inTime("the browser's start", Promise.race([failed, this.#devTools.call("Browser.getVersion")]));
    } catch (why) {
      await this.end();
      throw new Error(`${command} doesn't start: ${why.message}\n${this.#words}`);
    }
  }

  /** Its name and version. */
  async version() {
    return (await this.#devTools.call("Browser.getVersion")).product;
  }

  /** Opens a page at this URL. With `isApart` it shares no storage and no locks with the other pages. */
  async open(url, { isApart = false } = {}) {
    const context = isApart ? await this.#devTools.call("Target.createBrowserContext") : {};
    const { targetId } = await this.#devTools.call("Target.createTarget", { url: "about:blank", ...context });
    const { sessionId } = await this.#devTools.call("Target.attachToTarget", { targetId, flatten: true });
    await Promise.all(["Runtime.enable", "Page.enable"].map((it) => this.#devTools.call(it, {}, sessionId)));
    const page = new Page(this.#devTools, sessionId, targetId);
    await page.go(url);
    return page;
  }

  /** Evaluates an expression in a target that is no page, as a worker. */
  async evaluateIn(targetId, expression) {
    const { sessionId } = await this.#devTools.call("Target.attachToTarget", { targetId, flatten: true });
    await this.#devTools.call("Runtime.evaluate", { expression }, sessionId);
    // (a worker that comes in the place of one with a session waits for a debugger)
    await this.#devTools.call("Target.detachFromTarget", { sessionId });
  }

  /** Calls a method of the DevTools protocol on the browser. */
  call(method, params = {}) {
    return this.#devTools.call(method, params);
  }

  /** Ends it, and removes its profile. */
  async end() {
    const child = this.#child;
    if (child.pid !== undefined && child.exitCode === null && child.signalCode === null) {
      const ended = once(child, "exit");
      this.#devTools.call("Browser.close").catch(() => {});
      await inTime("the browser's end", ended, 5000).catch(() => child.kill("SIGKILL"));
    }
    await rm(this.#folder, { recursive: true, force: true, maxRetries: 10, retryDelay: 100 });
  }
}
