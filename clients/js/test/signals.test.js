/** Signals: aborted before, between and later. */

import assert from "node:assert/strict";
import { getEventListeners } from "node:events";
import { test } from "node:test";
import { SIGNALS_OF_AGENT } from "../src/signals.js";
import { assertFree, assertRejects, hold, sleep, until, untilPending, watch } from "./support/holding.js";
import { connectTo, startPushing, startRelayed, testWithEach } from "./support/servers.js";

const never = () => assert.fail("its callback was called");

testWithEach("a signal that is already aborted rejects at once", async (agent) => {
  const locks = await agent();
  const reason = { of: "mine" };
  const promise = watch(locks.request("db", { signal: AbortSignal.abort(reason) }, never));
  await null;
  await null;
  assert.equal(promise.state, "rejected");
  assert.equal(promise.reason, reason);
  await assertRejects(locks.request("db", { signal: AbortSignal.abort() }, never), "AbortError");
  await assertFree(locks);
});

testWithEach("one aborted before the callback was called rejects at once with its reason, and the callback never runs",
  async (agent) => {
    const [a, b] = [await agent(), await agent()];
    const holding = await hold(a, "db");
    const controller = new AbortController();
    const promise = watch(b.request("db", { signal: controller.signal }, never));
    await untilPending(a, 1);
    const reason = new Error("mine");
    controller.abort(reason);
    await null;
    await null;
    assert.equal(promise.state, "rejected");
    assert.equal(promise.reason, reason);
    await untilPending(b, 0);
    holding.release();
    await holding.promise;
    await assertFree(a);
  });

testWithEach("a grant that was on its way when the signal was aborted is released", async (agent) => {
  const [a, b] = [await agent(), await agent()];
  for (let round = 0; round < 50; round += 1) {
    const controller = new AbortController();
    const promise = watch(a.request("db", { signal: controller.signal }, never));
    controller.abort("mine");
    assert.equal((await promise.settled).reason, "mine");
  }
  assert.equal(await b.request("db", () => "free"), "free");
  await until(async () => (await b.query()).held.length === 0);
});

testWithEach("one aborted later does nothing", async (agent) => {
  const locks = await agent();
  const controller = new AbortController();
  const holding = await hold(locks, "db", { signal: controller.signal });
  controller.abort("mine");
  await sleep(50);
  assert.deepEqual((await locks.query()).held.map(({ name }) => name), ["db"]);
  assert.equal(locks.lostSignal(holding.lock).aborted, false);
  holding.release("kept");
  assert.equal(await holding.promise, "kept");
  await assertFree(locks);
});

testWithEach("one aborted by the callback itself does nothing", async (agent) => {
  const locks = await agent();
  const controller = new AbortController();
  const value = await locks.request("db", { signal: controller.signal }, () => {
    controller.abort("mine");
    return "kept";
  });
  assert.equal(value, "kept");
});

testWithEach("a reason stays the caller's own, whatever it is", async (agent) => {
  const [a, b] = [await agent(), await agent()];
  const holding = await hold(a, "db");
  const reasons = [{ of: "mine" }, null, 0, "text", Symbol("s"), new TypeError("mine"), new DOMException("m", "Odd")];
  for (const reason of reasons) {
    const controller = new AbortController();
    const promise = watch(b.request("db", { signal: controller.signal }, never));
    await untilPending(a, 1);
    controller.abort(reason);
    await promise.settled;
    assert.equal(promise.state, "rejected");
    assert.ok(Object.is(promise.reason, reason));
    await untilPending(a, 0);
  }
  await assertRejects(b.request("db", { signal: AbortSignal.timeout(30) }, never), "TimeoutError");
  holding.release();
  await holding.promise;
});

testWithEach("one signal may be that of several requests", async (agent) => {
  const [a, b] = [await agent(), await agent()];
  const holdings = [await hold(a, "one"), await hold(a, "two")];
  const controller = new AbortController();
  const { signal } = controller;
  const granted = await hold(b, "three", { signal });
  const promises = ["one", "one", "two"].map((name) => watch(b.request(name, { signal }, never)));
  await untilPending(a, 3);
  controller.abort("mine");
  for (const promise of promises) assert.equal((await promise.settled).reason, "mine");
  await untilPending(a, 0);
  granted.release("kept");
  assert.equal(await granted.promise, "kept");
  for (const holding of holdings) holding.release();
  await Promise.all(holdings.map(({ promise }) => promise));
  await assertFree(a);
});

testWithEach("an abort lets those behind it go on", async (agent) => {
  const [a, b, c] = [await agent(), await agent(), await agent()];
  const holding = await hold(a, "db", { mode: "shared" });
  const controller = new AbortController();
  const blocked = watch(b.request("db", { signal: controller.signal }, never));
  await untilPending(a, 1);
  const shared = watch(c.request("db", { mode: "shared" }, () => "shared"));
  await untilPending(a, 2);
  controller.abort("mine");
  assert.equal((await shared.settled).value, "shared");
  assert.equal((await blocked.settled).reason, "mine");
  holding.release();
  await holding.promise;
});

test("a page's listener on the signal is called as ever", async (t) => {
  const locks = await connectTo(t, await startPushing(t));
  const holding = await hold(locks, "db");
  const controller = new AbortController();
  let heard = 0;
  controller.signal.addEventListener("abort", () => { heard += 1; });
  const promise = assertRejects(locks.request("db", { signal: controller.signal }, never), "AbortError");
  controller.abort();
  await promise;
  assert.equal(heard, 1);
  holding.release();
  await holding.promise;
});

test("a signal has one listener of the client's at most, and none once no request waits with it", async (t) => {
  const locks = await connectTo(t, await startPushing(t));
  const listeners = (signal) => getEventListeners(signal, "abort").length;
  const holding = await hold(locks, "db");
  const [granted, aborted] = [new AbortController(), new AbortController()];
  const waiting = [granted, granted, aborted, aborted].map(({ signal }) => {
    return watch(locks.request("db", { signal }, () => listeners(signal)));
  });
  assert.ok(listeners(granted.signal) <= 1);
  aborted.abort("mine");
  assert.equal(listeners(aborted.signal), 0);
  holding.release();
  for (const promise of waiting) await promise.settled;
  assert.ok(waiting[0].value <= 1, "another request waits with it");
  assert.equal(waiting[1].value, 0);
  assert.deepEqual(waiting.slice(2).map(({ reason }) => reason), ["mine", "mine"]);
  const last = await hold(locks, "db", { signal: granted.signal });
  const closed = watch(locks.request("db", { signal: granted.signal }, never));
  await locks.close();
  await closed.settled;
  assert.equal(listeners(granted.signal), 0);
  assert.equal((await watch(last.promise).settled).reason.name, "AbortError");
});

test("a request that is aborted while it waits for a signal of the agent's is never sent", async (t) => {
  const server = await startRelayed(t);
  const locks = await connectTo(t, server);
  const controllers = Array.from({ length: 5 }, () => new AbortController());
  const promises = controllers.map(({ signal }) => watch(locks.request("db", { signal }, never)));
  for (const controller of controllers) controller.abort("mine");
  for (const promise of promises) assert.equal((await promise.settled).reason, "mine");
  assert.equal(await locks.request("db", () => "free"), "free");
  assert.equal(server.ops.filter((op) => op === "request").length, 2, "one had the spare signal, and one needs none");
  await assertFree(locks);
});

test("a signal that was not aborted serves the next request", async (t) => {
  const server = await startRelayed(t);
  const locks = await connectTo(t, server);
  for (let round = 0; round < 2 * SIGNALS_OF_AGENT; round += 1) {
    const { signal } = new AbortController();
    await locks.request("db", { signal }, () => {});
  }
  assert.equal(server.links, 1);
  assert.ok(server.ops.filter((op) => op === "signal").length <= 2);
});

test("requests with the same signal share one of the agent's", async (t) => {
  const server = await startRelayed(t);
  const [a, b] = [await connectTo(t, server), await connectTo(t, server)];
  const holding = await hold(a, "db");
  const controller = new AbortController();
  const count = SIGNALS_OF_AGENT + 100;
  const promises = Array.from({ length: count }, () => {
    return watch(b.request("db", { signal: controller.signal }, never));
  });
  await untilPending(a, count);
  controller.abort("mine");
  for (const promise of promises) assert.equal((await promise.settled).reason, "mine");
  await untilPending(a, 0);
  assert.equal(server.links, 2);
  assert.equal(server.ops.filter((op) => op === "abort").length, 1);
  holding.release();
  await holding.promise;
});
