/** A lost connection: what is lost with it, and what is asked again. */

import assert from "node:assert/strict";
import { test } from "node:test";
import { delayAfter } from "../src/delays.js";
import { assertFree, assertRejects, hold, sleep, until, untilPending, watch } from "./support/holding.js";
import { Proxy } from "./support/proxy.js";
import { EACH, connectTo, startPushing, startRelayed } from "./support/servers.js";

const never = () => assert.fail("its callback was called");

/** A promise of the next event. */
const next = (locks, type) => new Promise((resolve) => locks.addEventListener(type, resolve, { once: true }));

/** A client behind a proxy, by which it can be cut off, and another that isn't. */
async function startCuttable(t, options) {
  const server = await startRelayed(t);
  const proxy = await Proxy.start(t, server);
  const locks = await connectTo(t, proxy, options);
  return { server, proxy, locks, other: await connectTo(t, server) };
}

test("held locks are lost with the connection, and their promises reject with NetworkError", async (t) => {
  const { proxy, locks, other } = await startCuttable(t);
  const holdings = [await hold(locks, "one"), await hold(locks, "two", { mode: "shared" })];
  const lost = next(locks, "lost");
  proxy.cut();
  for (const { promise } of holdings) await assertRejects(promise, "NetworkError");
  for (const { lock } of holdings) assert.equal(locks.lostSignal(lock).aborted, true);
  assert.equal((await lost).reason.name, "NetworkError");
  await until(async () => (await other.query()).held.length === 0);
  for (const { release } of holdings) release("too late");
});

test("a lock whose release wasn't answered is lost", async (t) => {
  const { server, proxy, locks } = await startCuttable(t);
  const holding = await hold(locks, "db");
  server.isDeaf = true;
  holding.release("done");
  await until(() => server.ops.includes("release"));
  proxy.cut();
  await assertRejects(holding.promise, "NetworkError");
  server.isDeaf = false;
});

test("plain pending requests are asked again, in the order of the calls", async (t) => {
  const { server, proxy, locks, other } = await startCuttable(t);
  const holding = await hold(other, "db");
  const order = [];
  const promises = Array.from({ length: 30 }, (_, number) => {
    const options = number % 3 === 0 ? { signal: new AbortController().signal } : {};
    return locks.request("db", { ...options, mode: number % 2 === 0 ? "shared" : "exclusive" }, () => {
      order.push(number);
      return number;
    });
  });
  await untilPending(other, 30);
  const restored = next(locks, "restored");
  proxy.cut();
  await untilPending(other, 0);
  await restored;
  await untilPending(other, 30);
  holding.release();
  const numbers = Array.from({ length: 30 }, (_, number) => number);
  assert.deepEqual(await Promise.all(promises), numbers);
  assert.deepEqual(order, numbers);
  assert.equal(server.ops.filter((op) => op === "request").length, 61);
});

test("requests that are made while the connection is lost wait for the next, behind those before", async (t) => {
  const { proxy, locks, other } = await startCuttable(t);
  const holding = await hold(other, "db");
  const order = [];
  const before = locks.request("db", () => { order.push("before"); });
  await untilPending(other, 1);
  const lost = next(locks, "lost");
  proxy.cut();
  await lost;
  const meanwhile = locks.request("db", () => { order.push("meanwhile"); });
  await next(locks, "restored");
  const after = locks.request("db", () => { order.push("after"); });
  holding.release();
  await Promise.all([before, meanwhile, after]);
  assert.deepEqual(order, ["before", "meanwhile", "after"]);
});

test("a request that is aborted while the connection is lost rejects at once and isn't asked again", async (t) => {
  const { server, proxy, locks, other } = await startCuttable(t);
  const holding = await hold(other, "db");
  const controller = new AbortController();
  const promise = watch(locks.request("db", { signal: controller.signal }, never));
  await untilPending(other, 1);
  const lost = next(locks, "lost");
  proxy.cut();
  await lost;
  controller.abort("mine");
  assert.equal((await promise.settled).reason, "mine");
  await next(locks, "restored");
  await locks.query();
  assert.equal(server.ops.filter((op) => op === "request").length, 2);
  holding.release();
});

test("steals, ifAvailable and queries are not asked again: they reject with NetworkError", async (t) => {
  const { server, proxy, locks, other } = await startCuttable(t);
  const holding = await hold(other, "db");
  server.isDeaf = true;
  const asked = [
    locks.request("db", { steal: true }, never),
    locks.request("db", { ifAvailable: true }, never),
    locks.query(),
    locks.setActive(true),
  ].map(watch);
  await until(() => server.ops.includes("active"));
  const lost = next(locks, "lost");
  proxy.cut();
  server.isDeaf = false;
  for (const promise of asked) assert.equal((await promise.settled).reason?.name, "NetworkError");
  await lost;
  await assertRejects(locks.request("db", { steal: true }, never), "NetworkError");
  await assertRejects(locks.request("db", { ifAvailable: true }, never), "NetworkError");
  await assertRejects(locks.query(), "NetworkError");
  await next(locks, "restored");
  await locks.query();
  assert.equal(server.ops.filter((op) => op === "request").length, 3);
  holding.release("kept");
  assert.equal(await holding.promise, "kept");
});

test("reconnect: false ends the LockManager with the connection", async (t) => {
  const { proxy, locks, other } = await startCuttable(t, { reconnect: false });
  const holding = await hold(other, "db");
  const pending = locks.request("db", never);
  await untilPending(other, 1);
  const lost = next(locks, "lost");
  proxy.cut();
  await assertRejects(pending, "NetworkError");
  assert.equal((await locks.closed).name, "NetworkError");
  await lost;
  await assertRejects(locks.request("db", never), "NetworkError");
  await assertRejects(locks.query(), "NetworkError");
  await assert.rejects(locks.request("db", 5), TypeError);
  holding.release();
});

test("a grant that came just before the loss calls no callback: the request is asked again", async (t) => {
  const sockets = [];
  /** A socket that answers by itself, and the first time ends right after the grant. */
  class Ending {
    readyState = 1;
    protocol = "weblocks.push";

    constructor() {
      sockets.push(this);
      setImmediate(() => this.onopen());
    }

    send(text) {
      const { id, op } = JSON.parse(text);
      const notices = op === "request" ? [{ phase: "granted", request: 1 }] : [];
      const answers = { open: { client: "client-1" }, signal: { signal: 1 }, request: { request: 1 } };
      const ok = answers[op] ?? { release: "released" };
      setImmediate(() => {
        this.onmessage?.({ data: JSON.stringify({ id, notices, ok }) });
        if (op === "request" && sockets.length === 1) this.onclose({ code: 1006, reason: "" });
      });
    }

    close() {}
  }
  const locks = await connectTo(t, { url: "ws://127.0.0.1:9" }, { WebSocket: Ending });
  const calls = [];
  await locks.request("db", () => { calls.push(sockets.length); });
  assert.deepEqual(calls, [2]);
});

test("a window that was made inactive is inactive after a reconnection too", async (t) => {
  const { server, proxy, locks } = await startCuttable(t);
  await locks.setActive(false);
  const restored = next(locks, "restored");
  proxy.cut();
  await restored;
  await until(() => server.ops.filter((op) => op === "active").length === 2);
  await assertRejects(locks.request("db", never), "InvalidStateError");
  await locks.setActive(true);
  assert.equal(await locks.request("db", () => 1), 1);
});

test("close while the connection is lost gives up what waits, and the tries to connect", async (t) => {
  const { server, proxy, locks } = await startCuttable(t);
  const lost = next(locks, "lost");
  proxy.cut();
  await lost;
  const pending = watch(locks.request("db", never));
  assert.equal((await locks.close()).name, "AbortError");
  assert.equal((await pending.settled).reason.name, "AbortError");
  const links = server.links;
  await sleep(400);
  assert.equal(server.links, links);
});

for (const [how, start] of Object.entries(EACH)) {
  test(`the server killed and started again in the middle: what waited is granted in order (${how})`, async (t) => {
    const first = await start(t);
    const [a, b] = [await connectTo(t, first, { poll: 5 }), await connectTo(t, first, { poll: 5 })];
    const holdings = [await hold(a, "db"), await hold(b, "other", { mode: "shared" })];
    const order = [];
    const waiting = Array.from({ length: 30 }, (_, number) => {
      const signal = number % 3 === 0 ? new AbortController().signal : undefined;
      return watch(a.request("db", { signal }, () => { order.push(number); }));
    });
    await untilPending(b, 30);
    const events = ["lost", "restored"].map((type) => Promise.all([next(a, type), next(b, type)]));
    await first.kill();
    for (const { promise } of holdings) await assertRejects(promise, "NetworkError");
    await events[0];
    for (const options of [{ ifAvailable: true }, { steal: true }]) {
      await assertRejects(a.request("db", options, never), "NetworkError");
    }
    assert.ok(waiting.every(({ state }) => state === "pending"));
    const second = await start(t, { port: first.port });
    await events[1];
    await Promise.all(waiting.map(({ settled }) => settled));
    assert.deepEqual(order, Array.from({ length: 30 }, (_, number) => number));
    await assertFree(await connectTo(t, second));
  });

  test(`a client id of before isn't its own any more: the server may have given it to another (${how})`, async (t) => {
    const first = await start(t);
    const locks = await connectTo(t, first);
    const restored = next(locks, "restored");
    await first.kill();
    const second = await start(t, { port: first.port });
    const other = await connectTo(t, second);
    await restored;
    const holdings = [await hold(locks, "own"), await hold(other, "other's")];
    const clientIds = (await locks.query()).held.map(({ clientId }) => clientId);
    assert.equal(new Set(clientIds).size, 2);
    assert.deepEqual((await other.query()).held.map(({ clientId }) => clientId), clientIds);
    for (const { release } of holdings) release();
    await Promise.all(holdings.map(({ promise }) => promise));
  });
}

test("a server that is stopped in good order tells it (1001), and its clients come to the next", async (t) => {
  const first = await startPushing(t);
  const locks = await connectTo(t, first);
  const holding = await hold(locks, "db");
  const events = [next(locks, "lost"), next(locks, "restored")];
  await first.stop();
  await assertRejects(holding.promise, "NetworkError");
  assert.match((await events[0]).reason.message, /1001/);
  await startPushing(t, { port: first.port });
  await events[1];
  assert.equal(await locks.request("db", () => 1), 1);
});

test("a server that ends tells it (1001), and its clients come again", async (t) => {
  const { server, locks } = await startCuttable(t);
  const lost = next(locks, "lost");
  const restored = next(locks, "restored");
  server.closeAll(1001, "going away");
  assert.match((await lost).reason.message, /1001.*going away/);
  await restored;
  assert.equal(await locks.request("db", () => 1), 1);
});

test("tries to connect have jittered delays, from 0.1 to 10 seconds", () => {
  for (let tries = 0; tries < 40; tries += 1) {
    const whole = Math.min(10_000, 100 * 2 ** tries);
    assert.equal(delayAfter(tries, () => 0), whole);
    assert.ok(delayAfter(tries, () => 0.999) >= whole / 2);
    const delays = new Set(Array.from({ length: 20 }, () => delayAfter(tries)));
    assert.ok(delays.size > 1);
  }
});

test("clients that were cut off together don't come back together", async (t) => {
  const server = await startPushing(t);
  const proxy = await Proxy.start(t, server);
  const all = [];
  for (let count = 0; count < 12; count += 1) all.push(await connectTo(t, proxy));
  const times = [];
  const restored = all.map((locks) => next(locks, "restored").then(() => times.push(Date.now())));
  proxy.cut();
  await Promise.all(restored);
  assert.ok(Math.max(...times) - Math.min(...times) >= 5);
});
