/** The server's LockManager in the place of navigator.locks. */

import assert from "node:assert/strict";
import { test } from "node:test";
import { install } from "../polyfill.js";
import { Lock, LockManager } from "../weblocks.js";
import { assertRejects, hold, until, watch } from "./support/holding.js";
import { connectTo, startPolled, startRelayed } from "./support/servers.js";
import { WebSocket } from "./support/sockets.js";

const OPTIONS = { origin: "https://a.test", WebSocket };

test("navigator.locks is the server's LockManager at once, and what is asked waits for the connection", async (t) => {
  const server = await startRelayed(t);
  const locks = install({ url: server.url, ...OPTIONS });
  t.after(() => locks.close());
  assert.equal(navigator.locks, locks);
  assert.ok(navigator.locks instanceof globalThis.LockManager);
  assert.equal(globalThis.LockManager, LockManager);
  assert.equal(globalThis.Lock, Lock);
  const order = [];
  const asked = [
    navigator.locks.request("db", () => { order.push("plain"); }),
    navigator.locks.request("db", { signal: new AbortController().signal }, () => { order.push("signal"); }),
    navigator.locks.request("other", { ifAvailable: true }, (lock) => { order.push(String(lock)); }),
    navigator.locks.query().then(({ held, pending }) => { order.push([held.length, pending.length]); }),
  ];
  assert.equal(server.links, 0);
  await Promise.all(asked);
  assert.equal(order.length, 4);
  assert.ok(order.indexOf("plain") < order.indexOf("signal"));
});

test("locks are shared with others of the origin", async (t) => {
  const server = await startPolled(t);
  const locks = install({ url: server.url, poll: 5, ...OPTIONS });
  t.after(() => locks.close());
  const other = await connectTo(t, server, { poll: 5 });
  const holding = await hold(navigator.locks, "db");
  assert.equal(await other.request("db", { ifAvailable: true }, (lock) => lock), null);
  holding.release();
  await holding.promise;
  assert.equal(await other.request("db", { ifAvailable: true }, (lock) => lock?.name), "db");
});

test("a page may be there before its server is: plain requests wait, and others reject with NetworkError",
  async (t) => {
    const first = await startPolled(t);
    await first.stop();
    const locks = install({ url: first.url, poll: 5, ...OPTIONS });
    t.after(() => locks.close());
    const waiting = watch(navigator.locks.request("db", () => "granted"));
    await assertRejects(navigator.locks.request("db", { ifAvailable: true }, () => {}), "NetworkError");
    await startPolled(t, { port: first.port });
    assert.equal((await waiting.settled).value, "granted");
  });

test("without reconnection the first failure is the end", async (t) => {
  const server = await startPolled(t);
  await server.stop();
  const locks = install({ url: server.url, reconnect: false, ...OPTIONS });
  await assertRejects(navigator.locks.request("db", () => {}), "NetworkError");
  assert.equal((await locks.closed).name, "NetworkError");
});

test("an opaque origin is refused though there is no connection yet", async (t) => {
  const server = await startPolled(t);
  const locks = install({ url: server.url, ...OPTIONS, origin: "null" });
  t.after(() => locks.close());
  await assertRejects(navigator.locks.request("-x", () => {}), "SecurityError");
});

test("close before there is a connection gives up the connecting", async (t) => {
  const server = await startRelayed(t);
  const locks = install({ url: server.url, ...OPTIONS });
  const waiting = watch(navigator.locks.request("db", () => assert.fail("its callback was called")));
  await locks.close();
  assert.equal((await waiting.settled).reason.name, "AbortError");
  await until(() => server.open === 0);
});

test("a wrong option is thrown, and navigator.locks stays", () => {
  const before = navigator.locks;
  assert.throws(() => install({ url: "http://127.0.0.1" }), TypeError);
  assert.equal(navigator.locks, before);
});
