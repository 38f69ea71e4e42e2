/** The page in Chromium: opened, read, and used by its keyboard. */

import assert from "node:assert/strict";
import { writeFile } from "node:fs/promises";
import { after, before } from "node:test";
import { setTimeout as sleep } from "node:timers/promises";
import { Chromium } from "../../clients/js/test/browser/chromium.js";

/** What is waited for comes within these milliseconds, unless it never does. */
const PATIENCE = 20_000;

/**
 * What the page shows: its state and summary, and by its origin (and bucket, where that isn't the default) and name
 * who holds it and who waits, and for how long. A bar's ends are seconds before now.
 */
const READ = `(() => {
  const all = (root, selector) => [...root.querySelectorAll(selector)].filter((it) => !it.closest("[hidden]"));
  const texts = (root, selector) => all(root, selector).map((it) => it.textContent);
  const untimed = (root, selector) => all(root, selector)
    .map((it) => it.textContent.slice(0, -it.querySelector(".time").textContent.length));
  const barsOf = (svg) => {
    const { right, width } = svg.getBoundingClientRect();
    const ago = (x) => Math.round((10 * 60 * (right - x)) / width) / 10;
    return [...svg.querySelectorAll(".bar")].map((it) => {
      const { left, right, top, height } = it.getBoundingClientRect();
      const kind = it.getAttribute("class").replace("bar ", "");
      return { client: it.dataset.client, kind, from: ago(left), to: ago(right), top, height };
    });
  };
  // Whether each label is seen, and stands at the begin of its bar, or of the lane.
  const labelsOf = (svg) => [...svg.querySelectorAll(".bar + text")].map((it) => {
    const begin = Math.max(it.previousElementSibling.getBoundingClientRect().left, svg.getBoundingClientRect().left);
    const off = it.getBoundingClientRect().left - begin;
    return it.getAttribute("visibility") === "visible" && off > 3 && off < 15;
  });
  const names = {};
  let heading = null;
  for (const it of document.getElementById("shown").children) {
    if (it.querySelector("h2")) heading = texts(it, "h2 bdi").join(" ");
    else {
      const name = it.querySelector("h3 bdi")?.textContent ?? "";
      const svg = it.querySelector(".lane");
      names[heading + " " + name] = {
        count: it.querySelector(".count").textContent,
        held: untimed(it, "li.held"), waiting: untimed(it, "li.pending"), times: texts(it, ".time"),
        free: texts(it, ".free").length > 0, more: texts(it, ".more"), bars: barsOf(svg), labels: labelsOf(svg),
        thefts: svg.querySelectorAll(".theft").length, crowd: svg.querySelectorAll(".crowd").length,
        unseen: svg.querySelectorAll(".unseen").length, words: svg.getAttribute("aria-label"),
      };
    }
  }
  const text = (id) => document.getElementById(id).hidden ? "" : document.getElementById(id).textContent;
  return { state: text("state"), summary: text("summary"), leftOut: text("left_out"), names };
})()`;

/** A browser for all tests of a file. */
export function useBrowser() {
  const used = { chromium: null };
  before(async () => {
    used.chromium = await Chromium.start();
  });
  after(() => used.chromium?.end());
  return used;
}

/** The page, opened. Whatever the browser says against it is in `faults`, and what it asked for in `targets`. */
export class Opened {
  #page;
  faults = [];
  targets = [];

  /** Opens it at a URL, in a window of this size; the test closes it. */
  static async open(t, chromium, url, { width = 1200, height = 800, scheme = "light", motion = "no-preference" } = {}) {
    const made = new Opened();
    made.#page = await chromium.open("about:blank");
    made.url = url;
    t.after(() => made.close());
    made.#page.listen((event) => made.#take(event));
    const features = [
      { name: "prefers-color-scheme", value: scheme },
      { name: "prefers-reduced-motion", value: motion },
    ];
    const size = { width, height, deviceScaleFactor: 1, mobile: width < 500 };
    for (const domain of ["Log", "Network"]) await made.call(`${domain}.enable`);
    await made.call("Emulation.setDeviceMetricsOverride", size);
    await made.call("Emulation.setEmulatedMedia", { features });
    await made.call("Emulation.setFocusEmulationEnabled", { enabled: true });
    await made.#page.go(url);
    return made;
  }

  #take({ method, params }) {
    if (method === "Network.requestWillBeSent") this.targets.push(params.request.url);
    if (method === "Log.entryAdded") this.faults.push(`${params.entry.level}: ${params.entry.text}`);
    if (method === "Runtime.consoleAPICalled") this.faults.push(`console.${params.type}`);
    if (method === "Runtime.exceptionThrown") this.faults.push(params.exceptionDetails.text);
  }

  call(method, params) {
    return this.#page.call(method, params);
  }

  evaluate(expression) {
    return this.#page.evaluate(expression);
  }

  /** What it shows now. */
  read() {
    return this.evaluate(READ);
  }

  /** What it shows once that holds; the condition may throw as long as it doesn't. */
  async until(condition) {
    const end = Date.now() + PATIENCE;
    for (;;) {
      const shown = await this.read();
      let why = null;
      try {
        if ((await condition(shown)) !== false) return shown;
      } catch (fault) {
        why = fault;
      }
      if (Date.now() > end) {
        assert.fail(`not in ${PATIENCE} ms: ${condition}: ${why?.message ?? ""}\n${JSON.stringify(shown, null, 1)}`);
      }
      await sleep(50);
    }
  }

  /** What it shows once it shows these, members that aren't named aside. */
  untilShows(wanted) {
    return this.until((shown) => assert.deepEqual(partOf(shown, wanted), wanted));
  }

  /** Presses a key, as `Tab`, `Enter` or a blank. */
  async press(key, modifiers = 0) {
    const text = { Enter: "\r", " ": " " }[key];
    const code = { Tab: 9, Enter: 13, " ": 32, Escape: 27 }[key];
    const how = { key, code: key === " " ? "Space" : key, windowsVirtualKeyCode: code, modifiers };
    await this.call("Input.dispatchKeyEvent", { type: text ? "keyDown" : "rawKeyDown", text, ...how });
    await this.call("Input.dispatchKeyEvent", { type: "keyUp", ...how });
  }

  /** Types where the focus is. */
  async type(text) {
    await this.call("Input.insertText", { text });
  }

  /** Writes a picture of the window. */
  async picture(file) {
    const { data } = await this.call("Page.captureScreenshot", { format: "png" });
    await writeFile(file, Buffer.from(data, "base64"));
  }

  async close() {
    await this.#page.close().catch(() => {});
  }
}

/** Of a value those members that another one has too. */
function partOf(value, other) {
  if (Array.isArray(other) || typeof other !== "object" || other === null) return value;
  return Object.fromEntries(Object.keys(other).map((key) => [key, partOf(value?.[key], other[key])]));
}

export { sleep };
