/** Whom a daemon lets in of Chromium's pages, whose origin the browser itself names. */

import assert from "node:assert/strict";
import { test } from "node:test";
import { useChromium } from "./browser/using.js";
import { until } from "./support/holding.js";
import { startPushing } from "./support/servers.js";
import { startWithTokens } from "./support/tokens.js";

const used = useChromium();

/** Opens a page of the package's server, or of another origin, which is the same server by another name. */
async function openPage(isForeign = false) {
  const url = isForeign ? used.files.url.replace("127.0.0.1", "localhost") : used.files.url;
  return used.chromium.open(`${url}/test/browser/cases.html`);
}

/**
 * Has a page connect and ask for a lock, and answers "name, mode, whether it is pushed", or the name of the fault of
 * `connect`.
 */
function tryIn(page, options) {
  return page.evaluate(`(async () => {
    const { connect } = await import("/weblocks.js");
    const sockets = [];
    const Noted = class extends WebSocket {
      constructor(...given) { super(...given); sockets.push(this); }
    };
    const options = { ...${JSON.stringify(options)}, WebSocket: Noted };
    try {
      const locks = await connect(options);
      const held = await locks.request("db", ({ name, mode }) => [name, mode]);
      await locks.close();
      return [...held, ...sockets.map((it) => it.protocol)].join(" ");
    } catch (fault) {
      return fault.name;
    }
  })()`);
}

/** Has a page install the polyfill, and answers what a request and the end are rejected with. */
function tryPolyfill(page, options) {
  return page.evaluate(`(async () => {
    const { install } = await import("/polyfill.js");
    const locks = install(${JSON.stringify(options)});
    const asked = navigator.locks.request("db", (lock) => lock.name).catch((fault) => fault.name);
    const closed = locks.closed.then((fault) => fault.name);
    const first = await asked;
    const end = first === "db" ? locks.close() && "closed" : await closed;
    const later = await navigator.locks.request("db", () => {}).catch((fault) => fault.name);
    return [first, end, later].join(" ");
  })()`);
}

test("a page has the locks of its own origin, told by pushes, whatever the daemon allows", async (it) => {
  const { url } = await startPushing(it);
  for (const isForeign of [false, true]) {
    const page = await openPage(isForeign);
    assert.equal(await tryIn(page, { url }), "db exclusive weblocks.push");
    assert.deepEqual(page.faults, []);
  }
});

test("two pages of an origin in two browsers share locks, and one of another origin doesn't", async (it) => {
  const { url } = await startPushing(it);
  const hold = `(async () => {
    const { connect } = await import("/weblocks.js");
    const locks = await connect({ url: "${url}" });
    return new Promise((resolve) => {
      locks.request("db", { ifAvailable: true }, (lock) => {
        resolve(lock === null ? "not free" : "held");
        return lock && new Promise(() => {});
      });
    });
  })()`;
  const open = (address) => used.chromium.open(`${address}/test/browser/cases.html`, { isApart: true });
  const foreign = used.files.url.replace("127.0.0.1", "localhost");
  const said = [];
  for (const address of [used.files.url, used.files.url, foreign]) {
    const page = await open(address);
    said.push(await page.evaluate(hold));
  }
  assert.deepEqual(said, ["held", "not free", "held"]);
});

test("a page that names another origin is refused with SecurityError, unless its own is allowed to", async (it) => {
  const page = await openPage();
  const origin = "https://a.test";
  const strict = await startPushing(it);
  assert.equal(await tryIn(page, { url: strict.url, origin }), "SecurityError");
  assert.equal(await tryPolyfill(page, { url: strict.url, origin }), "SecurityError SecurityError SecurityError");
  const allowing = await startPushing(it, { words: ["--allow-origin", used.files.url] });
  assert.equal(await tryIn(page, { url: allowing.url, origin }), "db exclusive weblocks.push");
  assert.equal(await tryIn(await openPage(true), { url: allowing.url, origin }), "SecurityError");
  assert.deepEqual(page.faults, []);
});

test("a page has no Unix sockets: a TypeError", async () => {
  const page = await openPage();
  assert.equal(await tryIn(page, { url: "unix:/run/weblocks/socket" }), "TypeError");
});

test("a page's token goes beside weblocks.push; a wrong one, and none, is a NetworkError", async (it) => {
  const { url } = await startWithTokens(it, ["se.cr_et-1", `narrow ${used.files.url}`]);
  const page = await openPage();
  for (const token of ["se.cr_et-1", "narrow"]) {
    assert.equal(await tryIn(page, { url, token }), "db exclusive weblocks.push");
  }
  for (const token of ["wrong", undefined]) assert.equal(await tryIn(page, { url, token }), "NetworkError");
  assert.equal(await tryIn(await openPage(true), { url, token: "narrow" }), "SecurityError");
  assert.deepEqual(page.faults, []);
});

test("a manager too many is a QuotaExceededError, and a place too few a NetworkError", async (it) => {
  const page = await openPage();
  const ofManagers = await startPushing(it, { words: ["--managers", "1"] });
  const other = await openPage();
  const openedIn = (url) =>
    other.evaluate(`import("/weblocks.js").then(({ connect }) => connect({ url: "${url}" })).then(() => "open")`);
  assert.equal(await openedIn(ofManagers.url), "open");
  assert.equal(await tryIn(page, { url: ofManagers.url, bucket: "inbox" }), "QuotaExceededError");
  assert.equal(await tryIn(page, { url: ofManagers.url }), "db exclusive weblocks.push");
  const ofPlaces = await startPushing(it, { words: ["--connections", "1"] });
  assert.equal(await openedIn(ofPlaces.url), "open");
  assert.equal(await tryIn(page, { url: ofPlaces.url }), "NetworkError");
  assert.deepEqual(page.faults, []);
});

test("a daemon that is killed and started again: the page's locks are lost, and what waited is granted", async (it) => {
  const first = await startPushing(it);
  const page = await openPage();
  const asked = page.evaluate(`(async () => {
    const { connect } = await import("/weblocks.js");
    const locks = await connect({ url: "${first.url}" });
    const restored = new Promise((resolve) => locks.addEventListener("restored", resolve));
    const held = locks.request("db", () => new Promise(() => {})).catch((fault) => fault.name);
    const waiting = locks.request("db", () => "granted anew");
    await locks.query();
    document.title = "waits";
    const said = [await held, await waiting];
    await restored;
    const { held: left, pending } = await locks.query();
    return [...said, left.length, pending.length].join(", ");
  })()`);
  await until(async () => (await page.evaluate("document.title")) === "waits");
  await first.kill();
  await startPushing(it, { port: first.port });
  assert.equal(await asked, "NetworkError, granted anew, 0, 0");
});
