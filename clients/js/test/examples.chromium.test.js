/** The example pages, and the page that docs/CLIENTS.md shows, opened in Chromium as they stand. */

import assert from "node:assert/strict";
import { spawn } from "node:child_process";
import { once } from "node:events";
import { createInterface } from "node:readline";
import { after, before, test } from "node:test";

import { Chromium, inTime } from "./browser/chromium.js";
import { serveFiles } from "./browser/files.js";
import { TOP, firstProgram } from "./support/documents.js";
import { startPushing } from "./support/servers.js";

const SERVER = `${TOP}/examples/pages/server.mjs`;

/** Is fulfilled once the page's button may be clicked, with what the page shows. */
const READY = `new Promise((resolve) => {
  const [left, button] = ["left", "sell"].map((it) => document.getElementById(it));
  const look = () => button.disabled || resolve(left.textContent);
  new MutationObserver(look).observe(button, { attributes: true });
  look();
})`;

/** Is fulfilled once the page has another title, with that. */
const TITLED = `new Promise((resolve) => {
  const look = () => document.title && resolve(document.title);
  new MutationObserver(look).observe(document.head, { childList: true, subtree: true });
  look();
})`;

let chromium;
let server;
let pages;

before(async () => {
  chromium = await Chromium.start();
  server = spawn(process.execPath, [SERVER, "0"], { stdio: ["ignore", "pipe", "inherit"] });
  process.once("exit", () => server.kill());
  const lines = createInterface(server.stdout)[Symbol.asyncIterator]();
  const urls = async () => [(await lines.next()).value, (await lines.next()).value];
  pages = await inTime("the start of the pages' server", urls());
});

after(async () => {
  const ended = server && once(server, "exit");
  server?.kill();
  await Promise.all([ended, chromium?.end()]);
});

test("two pages in two browsers that share a database sell no ticket twice", async (it) => {
  const { url } = await startPushing(it);
  const opened = pages.map((page) => chromium.open(`${page}?locks=${encodeURIComponent(url)}`, { isApart: true }));
  const both = await Promise.all(opened);
  for (const page of both) {
    assert.equal(await page.evaluate(READY), "100");
  }
  const sell = `document.getElementById("sell").click(), ${READY}`;
  const shown = await Promise.all(both.map((page) => page.evaluate(sell)));
  assert.equal(Math.min(...shown.map(Number)), 80);
  assert.equal(await both[0].evaluate("fetch('/database').then((it) => it.json())"), 80);
  assert.deepEqual(both.map((page) => page.faults), [[], []]);
});

test("the page of docs/CLIENTS.md holds a lock as it stands", async (it) => {
  const { url } = await startPushing(it);
  const files = await serveFiles(TOP, { "/page.html": await firstProgram("docs/CLIENTS.md", "html", url) });
  it.after(() => files.end());
  const page = await chromium.open(`${files.url}/page.html`);
  assert.equal(await page.evaluate(TITLED), "db is held");
  assert.deepEqual(page.faults, []);
});
