/** A page opens URLs of its own origin alone, whatever its script asks for: `weblocks daemon` believes the browser. */

import assert from "node:assert/strict";
import { test } from "node:test";

import { serveFiles } from "./browser/files.js";
import { useChromium } from "./browser/using.js";
import { connectTo, startPushing } from "./support/servers.js";

const used = useChromium();

/** A page of an origin of its own, with that origin. */
async function openPage(it) {
  const files = await serveFiles(undefined, { "/page.html": "<!doctype html><title>A page</title>" });
  it.after(() => files.end());
  return { page: await used.chromium.open(`${files.url}/page.html`), origin: files.url };
}

/** What a page's own socket is told that asks for an agent of this origin and a lock, or how it is closed. */
function asking(url, origin) {
  const messages = [
    { id: 1, op: "open", url: `${origin}/` },
    { id: 2, op: "request", name: "of the page" },
  ].map((it) => JSON.stringify(it));
  return `new Promise((resolve) => {
    const [socket, told] = [new WebSocket(${JSON.stringify(url)}, "weblocks.push"), []];
    socket.onopen = () => ${JSON.stringify(messages)}.forEach((it) => socket.send(it));
    socket.onmessage = ({ data }) => told.push(JSON.parse(data)) === 2 && resolve({ told });
    socket.onclose = ({ code, reason, wasClean }) => resolve({ told, code, hasReason: reason !== "", wasClean });
  })`;
}

/** What the promise is fulfilled with in a sandboxed frame of a page, whose origin is opaque. */
function inSandbox(promise) {
  const program = `<script>${promise}.then((it) => parent.postMessage(it, "*"))</script>`;
  return `new Promise((resolve) => {
    addEventListener("message", ({ data }) => resolve(data), { once: true });
    const frame = document.createElement("iframe");
    frame.sandbox = "allow-scripts";
    frame.srcdoc = ${JSON.stringify(program).replace("</", "<\\/")};
    document.body.append(frame);
  })`;
}

const toldOf = ({ page }, url, origin) => page.evaluate(asking(url, origin));

const CLOSED = { told: [], code: 1008, hasReason: true, wasClean: true };

/** Sees that the page was given an agent and the lock. */
function expectOpened({ told }) {
  assert.deepEqual(told.map((it) => Object.keys(it.ok ?? it)), [["client"], ["request"]]);
  assert.deepEqual(told[1].notices.map((it) => it.phase), ["granted"]);
}

test("a page opens its own origin, and no other's", async (it) => {
  const server = await startPushing(it);
  const [mine, other] = [await openPage(it), await openPage(it)];
  const locks = await connectTo(it, server, { origin: other.origin });
  expectOpened(await toldOf(mine, server.url, mine.origin));
  for (const origin of [other.origin, "https://a.test", mine.origin.replace("127.0.0.1", "localhost")]) {
    assert.deepEqual(await toldOf(mine, server.url, origin), CLOSED, origin);
  }
  assert.deepEqual(await locks.query(), { held: [], pending: [] });
  expectOpened(await toldOf(other, server.url, other.origin));
});

test("a frame of an opaque origin opens nothing, unless all may", async (it) => {
  const [server, open] = [await startPushing(it), await startPushing(it, { words: ["--allow-origin", "*"] })];
  const { page, origin } = await openPage(it);
  for (const of of [origin, "https://a.test", "data:,x"]) {
    assert.deepEqual(await page.evaluate(inSandbox(asking(server.url, of))), CLOSED, of);
  }
  expectOpened(await page.evaluate(inSandbox(asking(open.url, origin))));
});

test("a page of an origin that is allowed opens another's", async (it) => {
  const [mine, other] = [await openPage(it), await openPage(it)];
  const server = await startPushing(it, { words: ["--allow-origin", mine.origin] });
  expectOpened(await toldOf(mine, server.url, other.origin));
  assert.deepEqual(await toldOf(other, server.url, mine.origin), CLOSED);
});

test("the package tells a page that another's locks aren't for it", async (it) => {
  const server = await startPushing(it);
  const { page, origin } = await openPage(it);
  const connecting = (of) => `import("${origin}/weblocks.js")
    .then(({ connect }) => connect({ url: "${server.url}", origin: "${of}" }))
    .then(() => "connected", (fault) => fault.name)`;
  assert.equal(await page.evaluate(connecting("https://a.test")), "SecurityError");
  assert.equal(await page.evaluate(connecting(origin)), "connected");
});
