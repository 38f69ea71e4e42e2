/** Requests reach the service in the order of the calls, whatever they need first. */

import assert from "node:assert/strict";
import { test } from "node:test";
import { SIGNALS_OF_AGENT } from "../src/signals.js";
import { assertFree, assertRejects, hold, until, untilPending, watch } from "./support/holding.js";
import { connectTo, startPushing, startRelayed, testWithEach } from "./support/servers.js";

const never = () => assert.fail("its callback was called");

/** The requests that a server was sent, in order. */
function sent(server) {
  return server.received.filter(({ message }) => message.op === "request").map(({ message }) => message);
}

test("requests reach the service in the order of the calls, where some need a signal that must be asked for",
  async (t) => {
    const server = await startRelayed(t);
    const locks = await connectTo(t, server);
    const names = Array.from({ length: 60 }, (_, number) => `name ${number}`);
    const promises = names.map((name, number) => {
      return locks.request(name, number % 3 === 0 ? {} : { signal: new AbortController().signal }, () => {});
    });
    await Promise.all(promises);
    assert.deepEqual(sent(server).map(({ name }) => name), names);
  });

test("a spare signal is always ready: a request with a signal is sent at once", async (t) => {
  const server = await startRelayed(t);
  const locks = await connectTo(t, server);
  assert.deepEqual(server.ops, ["open", "signal"]);
  const holding = await hold(locks, "db");
  for (let round = 0; round < 20; round += 1) {
    const before = server.received.length;
    watch(locks.request("db", { signal: new AbortController().signal }, never));
    await until(() => server.received.length === before + 2);
    assert.deepEqual(server.ops.slice(before).sort(), ["request", "signal"]);
    await until(async () => (await locks.query()).pending.length === round + 1);
  }
  assert.equal(holding.lock.name, "db");
});

testWithEach("a query is answered as of its call: after the requests before it, and before those after it",
  async (agent) => {
    const locks = await agent();
    const before = watch(locks.request("db", { signal: new AbortController().signal }, () => new Promise(() => {})));
    const between = watch(locks.request("db", { signal: new AbortController().signal }, never));
    const query = locks.query();
    const after = watch(locks.request("db", never));
    const { held, pending } = await query;
    assert.deepEqual([held.length, pending.length], [1, 1]);
    await locks.close();
    for (const promise of [before, between, after]) assert.equal((await promise.settled).reason.name, "AbortError");
  });

testWithEach("what was called first is granted first", async (agent) => {
  const locks = await agent();
  const order = [];
  const promises = Array.from({ length: 50 }, (_, number) => {
    const options = number % 2 === 0 ? {} : { signal: new AbortController().signal };
    return locks.request("db", options, () => { order.push(number); });
  });
  await Promise.all(promises);
  assert.deepEqual(order, Array.from({ length: 50 }, (_, number) => number));
});

test("a release that was called for before a request reaches the service before it", async (t) => {
  const server = await startPushing(t);
  const locks = await connectTo(t, server);
  const holding = await hold(locks, "db");
  holding.release();
  for (let turn = 0; turn < 10; turn += 1) await null;
  assert.equal(await locks.request("db", { ifAvailable: true }, (lock) => lock !== null), true);
});

test("a release waits for the requests before it, though they need signals that must be asked for", async (t) => {
  const server = await startRelayed(t);
  const locks = await connectTo(t, server);
  const holding = await hold(locks, "db");
  server.delay = 50;
  const before = server.received.length;
  const promises = ["one", "two", "three"].map((name) => {
    return locks.request(name, { signal: new AbortController().signal }, () => {});
  });
  holding.release();
  await Promise.all([holding.promise, ...promises]);
  const ops = server.ops.slice(before).filter((op) => op === "request" || op === "release");
  assert.deepEqual(ops.slice(0, 4), ["request", "request", "request", "release"]);
});

/** An agent that has used up its signals, at a server that has no place for its successor: its last request waits. */
async function startStuck(t) {
  const server = await startPushing(t, { words: ["--connections", "2"] });
  const [locks, other] = [await connectTo(t, server), await connectTo(t, server)];
  const holding = await hold(locks, "db");
  const order = [];
  const controllers = Array.from({ length: SIGNALS_OF_AGENT + 1 }, () => new AbortController());
  const waiting = controllers.map(({ signal }, number) => {
    return watch(locks.request("db", { signal }, () => { order.push(number); }));
  });
  await untilPending(other, SIGNALS_OF_AGENT);
  return { locks, other, holding, order, controllers, waiting };
}

test("a release passes a request that waits for a connection that can't be had: it may wait for that very lock",
  async (t) => {
    const { locks, other, holding, order, waiting } = await startStuck(t);
    const query = watch(locks.query());
    const released = watch(holding.promise);
    holding.release("kept");
    await until(() => released.state !== "pending");
    assert.equal(released.value, "kept");
    await Promise.all(waiting.map(({ settled }) => settled));
    assert.deepEqual(order, Array.from({ length: SIGNALS_OF_AGENT + 1 }, (_, number) => number));
    await query.settled;
    assert.equal(query.state, "fulfilled");
    await assertFree(other);
  });

test("an abort passes it too", async (t) => {
  const { other, holding, order, controllers, waiting } = await startStuck(t);
  controllers[0].abort("mine");
  assert.equal((await waiting[0].settled).reason, "mine");
  await untilPending(other, SIGNALS_OF_AGENT - 1);
  holding.release();
  await Promise.all(waiting.map(({ settled }) => settled));
  assert.deepEqual(order, Array.from({ length: SIGNALS_OF_AGENT }, (_, number) => number + 1));
  await assertFree(other);
});

test("where it is aborted itself, what waited behind it is sent", async (t) => {
  const { locks, controllers, waiting } = await startStuck(t);
  const behind = watch(locks.request("free", () => "granted"));
  controllers.at(-1).abort("mine");
  assert.equal((await waiting.at(-1).settled).reason, "mine");
  await until(() => behind.state !== "pending");
  assert.equal(behind.value, "granted");
});

test("where the window is made inactive meanwhile, it is sent over the further connection all the same", async (t) => {
  const { locks, other, holding, order, waiting } = await startStuck(t);
  const inactive = locks.setActive(false);
  await assertRejects(locks.request("db", never), "InvalidStateError");
  await other.close();
  await inactive;
  holding.release();
  await Promise.all(waiting.map(({ settled }) => settled));
  assert.deepEqual(order, Array.from({ length: SIGNALS_OF_AGENT + 1 }, (_, number) => number));
  await assertRejects(locks.query(), "InvalidStateError");
  await locks.setActive(true);
  await assertFree(locks);
});

test("before the last signal is gone the client goes on with a second connection, in order too", async (t) => {
  const server = await startRelayed(t);
  const [a, b] = [await connectTo(t, server), await connectTo(t, server)];
  const holding = await hold(a, "db");
  const count = SIGNALS_OF_AGENT + 50;
  const order = [];
  const promises = Array.from({ length: count }, (_, number) => {
    return b.request("db", { signal: new AbortController().signal }, () => { order.push(number); });
  });
  await untilPending(a, count);
  assert.equal(server.links, 3);
  const withSignals = sent(server).filter(({ options }) => options.signal !== undefined);
  assert.equal(withSignals.length, count);
  const numbers = Array.from({ length: count }, (_, number) => number);
  holding.release();
  await Promise.all(promises);
  assert.deepEqual(order, numbers);
  await assertFree(a);
  await until(() => server.open === 2);
});

test("its own query shows one clientId, and others see two", async (t) => {
  const server = await startPushing(t);
  const [a, b] = [await connectTo(t, server), await connectTo(t, server)];
  const early = await hold(b, "early");
  const holding = await hold(a, "db");
  const own = (await b.query()).held[0].clientId;
  const controllers = Array.from({ length: SIGNALS_OF_AGENT + 50 }, () => new AbortController());
  const promises = controllers.map(({ signal }) => watch(b.request("db", { signal }, never)));
  await untilPending(a, controllers.length);
  const late = await hold(b, "late");
  const shown = await b.query();
  assert.deepEqual(shown.held.filter(({ name }) => name !== "db").map(({ clientId }) => clientId), [own, own]);
  assert.equal(new Set(shown.pending.map(({ clientId }) => clientId)).size, 1);
  assert.equal(new Set((await a.query()).pending.map(({ clientId }) => clientId)).size, 2);
  for (const controller of controllers) controller.abort("mine");
  for (const promise of promises) assert.equal((await promise.settled).reason, "mine");
  for (const { release } of [early, holding, late]) release();
  await Promise.all([early.promise, holding.promise, late.promise]);
  assert.equal((await b.query()).held.length, 0);
});

test("a lock of the first connection is released, stolen and told lost as ever after the second serves", async (t) => {
  const server = await startRelayed(t);
  const [a, b] = [await connectTo(t, server), await connectTo(t, server)];
  const [kept, stolen] = [await hold(b, "kept"), await hold(b, "stolen")];
  await useUpSignals(a, b);
  await a.request("stolen", { steal: true }, () => {});
  await assert.rejects(stolen.promise, { name: "AbortError" });
  kept.release("kept");
  assert.equal(await kept.promise, "kept");
  await until(() => server.open === 2);
  assert.equal(await b.request("kept", { ifAvailable: true }, (lock) => lock !== null), true);
});

/** Has 10,000 requests be aborted, a thousand at a time. */
async function abortMany(a, b) {
  const holding = await hold(a, "db");
  for (let round = 0; round < 10; round += 1) {
    const controllers = Array.from({ length: 1000 }, () => new AbortController());
    const promises = controllers.map(({ signal }) => watch(b.request("db", { signal }, never)));
    await untilPending(a, 1000);
    for (const controller of controllers) controller.abort(round);
    for (const promise of promises) assert.equal((await promise.settled).reason, round);
    await untilPending(b, 0);
  }
  holding.release();
  await holding.promise;
  assert.equal(await b.request("db", { signal: new AbortController().signal }, () => "granted"), "granted");
  await assertFree(a);
}

testWithEach("10,000 aborted requests leave nothing behind, and later ones go on", async (agent) => {
  await abortMany(await agent(), await agent());
});

test("10,000 aborted requests take a connection for some 1,000 of them, each ended when it is done", async (t) => {
  const server = await startRelayed(t);
  await abortMany(await connectTo(t, server), await connectTo(t, server));
  assert.ok(server.links <= 13, `${server.links} connections for 10,000 signals and two agents`);
  await until(() => server.open <= 3);
});

test("1,100 requests with signals of their own, each aborted before the next, are two agents' signals", async (t) => {
  const server = await startRelayed(t);
  const [a, b] = [await connectTo(t, server), await connectTo(t, server)];
  await useUpSignals(a, b, 1100);
  assert.equal(server.ops.filter((op) => op === "abort").length, 1100);
  assert.equal(server.links, 3);
  assert.equal(await b.request("db", { signal: new AbortController().signal }, () => "granted"), "granted");
});

/** Has so many requests of `b` wait behind a lock of `a`, each of which is aborted before the next is made. */
async function useUpSignals(a, b, count = SIGNALS_OF_AGENT + 1) {
  const holding = await hold(a, "used up");
  for (let round = 0; round < count; round += 1) {
    const controller = new AbortController();
    const promise = watch(b.request("used up", { signal: controller.signal }, never));
    await b.query();
    controller.abort("mine");
    await promise.settled;
  }
  holding.release();
  await holding.promise;
}
