/** Windows that are made inactive: what was called before keeps its place, whatever connection it goes over. */

import assert from "node:assert/strict";
import { test } from "node:test";
import { install } from "../polyfill.js";
import { assertRejects, hold, until, untilPending, watch } from "./support/holding.js";
import { Proxy } from "./support/proxy.js";
import { EACH, connectTo, startPolled, startRelayed, testWithEach } from "./support/servers.js";
import { WebSocket } from "./support/sockets.js";

const OPTIONS = { origin: "https://a.test", WebSocket };

const never = () => assert.fail("its callback was called");

/** A promise of the next event. */
const next = (locks, type) => new Promise((resolve) => locks.addEventListener(type, resolve, { once: true }));

/** A page that may call before there is a connection, which the test closes. */
function installTo(t, { url }, options = {}) {
  const locks = install({ url, ...OPTIONS, ...options });
  t.after(() => locks.close());
  return locks;
}

/** A client behind a proxy, by which it can be cut off, and another that isn't and holds "db". */
async function startCuttable(t) {
  const server = await startRelayed(t);
  const proxy = await Proxy.start(t, server);
  const [locks, other] = [await connectTo(t, proxy), await connectTo(t, server)];
  return { server, proxy, locks, other, holding: await hold(other, "db") };
}

/** Cuts a client off, and gives what was sent over the next connection once it is told there that it is inactive. */
async function cutOff({ server, proxy, locks }, meanwhile = () => {}) {
  const [lost, restored] = [next(locks, "lost"), next(locks, "restored")];
  proxy.cut();
  await lost;
  meanwhile();
  await restored;
  const link = server.links;
  await until(() => told(server, link).at(-1) === "active: false");
  return told(server, link);
}

/** What a server was sent over one connection of requests, questions, and activity. */
function told(server, link) {
  const messages = server.received.filter((it) => it.link === link).map(({ message }) => message);
  return messages.flatMap(({ op, name, active }) => {
    if (op === "request") return [`request: ${name}`];
    if (op === "active") return [`active: ${active}`];
    return op === "query" ? [op] : [];
  });
}

testWithEach("what waits when a window is made inactive is granted, and what is called after it is refused",
  async (agent) => {
    const [a, b] = [await agent(), await agent()];
    const holding = await hold(a, "db");
    const waiting = watch(b.request("db", () => "granted"));
    const inactive = b.setActive(false);
    await assertRejects(b.request("db", never), "InvalidStateError");
    await inactive;
    holding.release();
    assert.equal((await waiting.settled).value, "granted");
    await assertRejects(b.query(), "InvalidStateError");
  });

test("after a loss what waited is asked again before the next connection is told of the inactivity", async (t) => {
  const cuttable = await startCuttable(t);
  const { locks, other, holding } = cuttable;
  const waiting = [
    watch(locks.request("db", () => "plain")),
    watch(locks.request("db", { signal: new AbortController().signal }, () => "signal")),
    watch(locks.request("db", { signal: new AbortController().signal }, () => "another")),
  ];
  await locks.setActive(false);
  const sent = await cutOff(cuttable);
  assert.deepEqual(sent, ["request: db", "request: db", "request: db", "active: false"]);
  await assertRejects(locks.request("db", never), "InvalidStateError");
  await untilPending(other, 3);
  holding.release();
  for (const promise of waiting) await promise.settled;
  assert.deepEqual(waiting.map(({ value }) => value), ["plain", "signal", "another"]);
});

test("what is called while the connection is lost is sent or refused as the window was when it was called",
  async (t) => {
    const cuttable = await startCuttable(t);
    const { locks, holding } = cuttable;
    const order = [];
    const asked = [];
    const ask = (name) => asked.push(watch(locks.request(name, () => { order.push(name); })));
    ask("db");
    await locks.query();
    const sent = await cutOff(cuttable, () => {
      ask("one");
      locks.setActive(false);
      ask("refused");
      locks.setActive(true);
      ask("two");
      locks.setActive(false);
      ask("refused too");
    });
    assert.deepEqual(sent, ["request: db", "request: one", "request: two", "active: false"]);
    holding.release();
    for (const promise of asked) await promise.settled;
    const ends = asked.map(({ state, reason }) => reason?.name ?? state);
    assert.deepEqual(ends, ["fulfilled", "fulfilled", "InvalidStateError", "fulfilled", "InvalidStateError"]);
    assert.deepEqual(order.sort(), ["db", "one", "two"]);
  });

test("a window that is active again by the next connection is told nothing there", async (t) => {
  const { server, proxy, locks } = await startCuttable(t);
  await locks.setActive(false);
  const [lost, restored] = [next(locks, "lost"), next(locks, "restored")];
  proxy.cut();
  await lost;
  await locks.setActive(true);
  await restored;
  assert.equal(await locks.request("free", () => "granted"), "granted");
  assert.deepEqual(told(server, server.links), ["request: free"]);
});

test("before there is a connection what is called waits, and is sent or refused as the window was", async (t) => {
  const server = await startRelayed(t);
  const locks = installTo(t, server);
  const { signal } = new AbortController();
  const asked = [
    locks.request("plain", () => "plain"),
    locks.request("signal", { signal }, () => "signal"),
    locks.request("steal", { steal: true }, () => "steal"),
    locks.request("available", { ifAvailable: true }, (lock) => lock.name),
    locks.query().then(({ pending }) => pending.length),
    locks.setActive(false),
    locks.request("refused", never),
    locks.query(),
    locks.setActive(true),
    locks.request("last", () => "last"),
    locks.setActive(false),
  ].map(watch);
  assert.equal(server.links, 0);
  for (const promise of asked) await promise.settled;
  assert.deepEqual(asked.map(({ value, reason }) => reason?.name ?? value), [
    "plain", "signal", "steal", "available", 0, undefined, "InvalidStateError", "InvalidStateError", undefined, "last",
    undefined,
  ]);
  assert.deepEqual(told(server, 1), [
    "request: plain", "request: signal", "request: steal", "request: available", "query", "active: false",
    "active: true", "request: last", "active: false",
  ]);
});

test("a page that is made inactive before its server is there has what it asked before", async (t) => {
  const first = await startPolled(t);
  await first.stop();
  const locks = installTo(t, first, { poll: 5 });
  const waiting = watch(locks.request("db", () => "granted"));
  const inactive = watch(locks.setActive(false));
  await next(locks, "lost");
  await assertRejects(locks.request("db", never), "InvalidStateError");
  await startPolled(t, { port: first.port });
  assert.equal((await waiting.settled).value, "granted");
  assert.equal((await inactive.settled).reason?.name, "NetworkError");
  await assertRejects(locks.query(), "InvalidStateError");
});

for (const [how, start] of Object.entries(EACH)) {
  test(`an inactive window's requests are granted by the server that is started again (${how})`, async (t) => {
    const first = await start(t);
    const [a, b] = [await connectTo(t, first, { poll: 5 }), await connectTo(t, first, { poll: 5 })];
    const holding = await hold(a, "db");
    const waiting = watch(b.request("db", () => "granted"));
    await b.setActive(false);
    const restored = next(b, "restored");
    await first.kill();
    await assertRejects(holding.promise, "NetworkError");
    await start(t, { port: first.port });
    await restored;
    assert.equal((await waiting.settled).value, "granted");
    await assertRejects(b.request("db", never), "InvalidStateError");
  });
}
