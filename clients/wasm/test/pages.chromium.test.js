/** Pages of one origin in Chromium share locks by their worker, and whoever ends gives his up. */

import assert from "node:assert/strict";
import { readFileSync } from "node:fs";
import { test } from "node:test";
import { sleep, until } from "../../js/test/support/holding.js";
import { inTime } from "../../js/test/browser/chromium.js";
import { Pages, WORKERS } from "./browser/pages.js";
import { hasModule } from "./support/engines.js";

/** Within these milliseconds the locks of a page that is gone pass on. */
const GONE = 10_000;

/** A push is there within these, unless something waits for a poll or a heartbeat. */
const PUSHED = 1500;

/** The program that README.md shows first. */
const SHOWN = readFileSync(new URL("../README.md", import.meta.url), "utf8").match(/^```js\n(.*?)^```$/ms)[1];

/** The example page, with the clients where these tests have them. */
const EXAMPLE = new URL("../../../examples/pages/tabs.html", import.meta.url);
const TABS = readFileSync(EXAMPLE, "utf8").replaceAll("../../clients/", "/");

const pages = Pages.use({
  "/shown.html": `<!doctype html><script type="module">${SHOWN}</script>`,
  ...Object.fromEntries(
    Object.entries(WORKERS).map(([engine, worker]) => [`/${engine}.html`, TABS.replace(WORKERS.module, worker)]),
  ),
});

/** How many requests are held and pending, as a page sees it. */
const COUNTS = "locks.query().then(({ held, pending }) => [held.length, pending.length])";

/** Has a page wait for a lock, and gives a promise of its being granted, as `granted`. */
async function wait(page, name, options = {}) {
  const granted = page.evaluate(`hold("${name}", ${JSON.stringify(options)})`, 60_000);
  granted.catch(() => {});
  await page.evaluate("locks.query()");
  return { granted };
}

/** The page that waits is granted the lock in time, once this is done. It gives how many milliseconds that took. */
async function assertPassesOn(waiting, granted, end, milliseconds = GONE) {
  const begun = performance.now();
  await end();
  assert.equal(await inTime("the grant", granted, milliseconds), "db");
  await waiting.evaluate("release()");
  return Math.round(performance.now() - begun);
}

for (const engine of Pages.engines) {
  const testHere = (sentence, run) => test(`${sentence} (${engine})`, run);
  const open = (options) => pages.open(engine, options);

  testHere("one page holds a lock, and the other is granted it by a push", async () => {
    const [a, b] = [await open(), await open()];
    await a.evaluate('hold("db")');
    const { granted } = await wait(b, "db");
    const { held, pending } = await a.evaluate("locks.query()");
    assert.deepEqual([held.length, pending.length], [1, 1]);
    assert.notEqual(held[0].clientId, pending[0].clientId);
    await assertPassesOn(b, granted, () => a.evaluate("release()"), PUSHED);
    assert.deepEqual([...a.faults, ...b.faults], []);
    await Promise.all([a.close(), b.close()]);
  });

  testHere("a page gives up its request, and what waited behind it in another page is granted", async () => {
    const [a, b, c] = [await open(), await open(), await open()];
    await a.evaluate('hold("db", { mode: "shared" })');
    const aborted = b.evaluate('giveUp("db", 1000)');
    await b.evaluate("locks.query()");
    const { granted } = await wait(c, "db", { mode: "shared" });
    assert.equal(await aborted, "TimeoutError");
    await assertPassesOn(c, granted, () => {}, PUSHED);
    await Promise.all([a, b, c].map((it) => it.close()));
  });

  testHere("a page steals a lock, and the other one is told", async () => {
    const [a, b] = [await open(), await open()];
    await a.evaluate('hold("db")');
    await b.evaluate('hold("db", { steal: true })');
    const lost = "new Promise((resolve) => lost.aborted ? resolve(true) : lost.onabort = () => resolve(true))";
    assert.equal(await a.evaluate(lost, PUSHED), true);
    await a.evaluate("release()");
    assert.equal(await a.evaluate("over"), "AbortError");
    await Promise.all([a.close(), b.close()]);
  });

  for (const isSecure of [true, false]) {
    const where = isSecure ? "" : ", where the browser has no locks for it";

    testHere(`a page that is closed gives up its lock${where}`, async (t) => {
      const [a, b] = [await open({ isSecure }), await open({ isSecure })];
      assert.equal(await a.evaluate("'locks' in navigator"), isSecure);
      await a.evaluate('hold("db")');
      const { granted } = await wait(b, "db");
      t.diagnostic(`${await assertPassesOn(b, granted, () => a.close())} ms`);
      await b.close();
    });

    testHere(`a page that goes elsewhere gives up its lock, and may come back${where}`, async (t) => {
      const [a, b] = [await open({ isSecure }), await open({ isSecure })];
      await a.evaluate('hold("db")');
      const { granted } = await wait(b, "db");
      t.diagnostic(`${await assertPassesOn(b, granted, () => a.go(pages.blankUrl))} ms`);
      // (the browser may have kept it, and may load it anew; the answer may be lost with the page that is left)
      await a.evaluate("history.back()").catch(() => {});
      await until(() => a.evaluate("'ready' in window && ready").catch(() => false));
      assert.equal(await a.evaluate('locks.request("db", () => "again")'), "again");
      t.diagnostic(`its events: ${await a.evaluate("events.join()")}`);
      await Promise.all([a.close(), b.close()]);
    });

    testHere(`a page whose renderer is killed gives up its lock${where}`, async (t) => {
      // (the first page may share its process with the worker)
      const [first, a, b] = [await open({ isSecure }), await open({ isSecure }), await open({ isSecure })];
      await a.evaluate('hold("db")');
      const { granted } = await wait(b, "db");
      t.diagnostic(`${await assertPassesOn(b, granted, () => void a.call("Page.crash").catch(() => {}))} ms`);
      await Promise.all([first.close(), b.close()]);
    });
  }

  testHere("a page that is frozen for long keeps its lock, and so does one whose script doesn't return", async () => {
    const [a, b] = [await open(), await open()];
    await a.evaluate('hold("db")');
    const { granted } = await wait(b, "db");
    await a.call("Page.setWebLifecycleState", { state: "frozen" });
    await sleep(GONE + 3000);
    assert.deepEqual(await b.evaluate(COUNTS), [1, 1]);
    await a.call("Page.setWebLifecycleState", { state: "active" });
    await a.evaluate(`for (const end = Date.now() + ${GONE}; Date.now() < end; );`);
    assert.deepEqual(await b.evaluate(COUNTS), [1, 1]);
    await assertPassesOn(b, granted, () => a.evaluate("release()"), PUSHED);
    assert.deepEqual(await a.evaluate("events"), []);
    await Promise.all([a.close(), b.close()]);
  });

  testHere("where the worker ends, its locks are lost, and the pages go on with a new one", async () => {
    const [a, b] = [await open(), await open()];
    await a.evaluate('hold("db")');
    const { granted } = await wait(b, "db");
    assert.ok((await pages.endWorkers()) > 0);
    assert.equal(await a.evaluate("over", 60_000), "NetworkError");
    assert.equal(await inTime("the grant", granted, 60_000), "db");
    assert.deepEqual(await b.evaluate("events"), ["lost", "restored"]);
    await Promise.all([a.close(), b.close()]);
  });
}

for (const engine of Pages.engines) {
  test(`the example page has its lock in one tab at a time (${engine})`, async () => {
    const [a, b] = [await pages.openAt(`/${engine}.html`), await pages.openAt(`/${engine}.html`)];
    const said = (page) => page.evaluate('document.getElementById("said").textContent');
    await until(async () => [await said(a), await said(b)].includes("has tickets"));
    const [first, second] = (await said(a)) === "has tickets" ? [a, b] : [b, a];
    assert.equal(await said(second), "waits");
    await first.close();
    await until(async () => (await said(second)) === "has tickets");
    assert.deepEqual(second.faults, []);
    await second.close();
  });
}

const skip = hasModule ? false : "the module isn't built: clients/wasm/build builds it";

// (only there can it be seen)
if (!hasModule) {
  test("the example page says that it has no locks, and why", async () => {
    const page = await pages.openAt("/module.html");
    const said = () => page.evaluate('document.getElementById("said").textContent');
    await until(async () => /^has no locks: .*weblocks\.wasm can't be had: status 404$/.test(await said()));
    await page.close();
  });
}

test("the page that README.md shows holds a lock as it stands", { skip }, async () => {
  const page = await pages.openAt("/shown.html");
  await until(async () => (await page.evaluate("document.title")) === "report is mine");
  assert.deepEqual(page.faults, []);
  await page.close();
});
