/** What callbacks are given, and when the promise of a request settles. */

import assert from "node:assert/strict";
import { test } from "node:test";
import { assertFree, assertRejects, hold, sleep, until, untilPending, watch } from "./support/holding.js";
import { connectTo, startPolled, startPushing, testWithEach } from "./support/servers.js";

testWithEach("the callback gets a Lock with name and mode, or null", async (agent) => {
  const [a, b] = [await agent(), await agent()];
  const shared = await hold(a, "db", { mode: "shared" });
  assert.deepEqual([shared.lock.name, shared.lock.mode], ["db", "shared"]);
  assert.equal(await b.request("db", { ifAvailable: true }, (lock) => lock), null);
  assert.equal(await b.request("db", { ifAvailable: true, mode: "shared" }, (lock) => lock.mode), "shared");
  shared.release();
  await shared.promise;
  assert.equal(await b.request("db", { ifAvailable: true }, (lock) => lock.mode), "exclusive");
});

testWithEach("the callback is called once, with one argument, no this, and never before request returns",
  async (agent) => {
    const locks = await agent();
    const calls = [];
    let hasReturned = false;
    const promise = locks.request("db", function callback(...given) {
      calls.push({ given, self: this, hasReturned });
    });
    hasReturned = true;
    await promise;
    assert.equal(calls.length, 1);
    assert.equal(calls[0].given.length, 1);
    assert.equal(calls[0].self, undefined);
    assert.equal(calls[0].hasReturned, true);
  });

testWithEach("the lock is held until what the callback returned settles", async (agent) => {
  const [a, b] = [await agent(), await agent()];
  let settle;
  const promise = a.request("db", () => new Promise((resolve) => { settle = resolve; }));
  await until(() => settle !== undefined);
  const second = watch(b.request("db", () => "second"));
  await untilPending(a, 1);
  await sleep(50);
  assert.equal(second.state, "pending");
  settle("first");
  assert.equal(await promise, "first");
  assert.equal((await second.settled).value, "second");
});

testWithEach("request's promise settles with what the callback returned or threw", async (agent) => {
  const locks = await agent();
  const fault = new Error("mine");
  const thenable = { then: (resolve) => resolve("of a thenable") };
  const odd = { get then() { throw fault; } };
  assert.equal(await locks.request("db", () => 5), 5);
  assert.equal(await locks.request("db", async () => "later"), "later");
  assert.equal(await locks.request("db", () => thenable), "of a thenable");
  await assert.rejects(locks.request("db", () => { throw fault; }), (reason) => reason === fault);
  await assert.rejects(locks.request("db", async () => { throw fault; }), (reason) => reason === fault);
  await assert.rejects(locks.request("db", () => odd), (reason) => reason === fault);
  await assertFree(locks);
});

testWithEach("what the callback does with null settles the promise too", async (agent) => {
  const [a, b] = [await agent(), await agent()];
  const holding = await hold(a, "db");
  const fault = new Error("mine");
  const refuse = () => { throw fault; };
  assert.equal(await b.request("db", { ifAvailable: true }, async () => "none"), "none");
  await assert.rejects(b.request("db", { ifAvailable: true }, refuse), (reason) => reason === fault);
  holding.release();
  await holding.promise;
});

testWithEach("the promise settles after the release was answered: another's ifAvailable finds the lock free",
  async (agent) => {
    const [a, b] = [await agent(), await agent()];
    for (let round = 0; round < 200; round += 1) {
      await a.request("db", () => {});
      assert.ok(await b.request("db", { ifAvailable: true }, (lock) => lock !== null), `round ${round}`);
      await a.request("db", () => Promise.reject(new Error("mine"))).catch(() => {});
      assert.ok(await b.request("db", { ifAvailable: true }, (lock) => lock !== null), `round ${round}`);
    }
  });

testWithEach("a steal rejects the holder's promise with AbortError and leaves its callback running", async (agent) => {
  const [a, b] = [await agent(), await agent()];
  const holding = await hold(a, "db");
  const lost = a.lostSignal(holding.lock);
  assert.equal(lost.aborted, false);
  const thief = await hold(b, "db", { steal: true });
  await assertRejects(holding.promise, "AbortError");
  assert.equal(lost.aborted, true);
  assert.equal(lost.reason.name, "AbortError");
  holding.release("too late");
  await sleep(50);
  assert.deepEqual((await a.query()).held.map(({ name }) => name), ["db"]);
  thief.release("stolen");
  assert.equal(await thief.promise, "stolen");
  await assertFree(a);
});

testWithEach("a steal takes all shared locks of the name, and goes before what waits", async (agent) => {
  const [a, b, c] = [await agent(), await agent(), await agent()];
  const first = await hold(a, "db", { mode: "shared" });
  const second = await hold(b, "db", { mode: "shared" });
  const other = await hold(a, "other", { mode: "shared" });
  const waiting = watch(b.request("db", () => "waited"));
  await untilPending(a, 1);
  const thief = await hold(c, "db", { steal: true });
  await assertRejects(first.promise, "AbortError");
  await assertRejects(second.promise, "AbortError");
  assert.equal(waiting.state, "pending");
  thief.release();
  await thief.promise;
  assert.equal((await waiting.settled).value, "waited");
  other.release("kept");
  assert.equal(await other.promise, "kept");
});

test("a lock that was stolen before its release came rejects with AbortError, though it wasn't told", async (t) => {
  const server = await startPolled(t);
  const [a, b] = [await connectTo(t, server), await connectTo(t, server)];
  const holding = await hold(a, "db");
  const lost = a.lostSignal(holding.lock);
  const thief = await hold(b, "db", { steal: true });
  holding.release("too late");
  await assertRejects(holding.promise, "AbortError");
  assert.equal(lost.aborted, true);
  thief.release();
  await thief.promise;
  await assertFree(a);
});

testWithEach("a callback's late rejection after a theft is nobody's", async (agent) => {
  const [a, b] = [await agent(), await agent()];
  let reject;
  const promise = a.request("db", () => new Promise((_, refuse) => { reject = refuse; }));
  await until(() => reject !== undefined);
  const outcome = assertRejects(promise, "AbortError");
  await b.request("db", { steal: true }, () => {});
  await outcome;
  reject(new Error("nobody's"));
  await sleep(20);
});

testWithEach("an agent's own locks stand in each other's way too", async (agent) => {
  const locks = await agent();
  const inner = await locks.request("db", () => locks.request("db", { ifAvailable: true }, (lock) => lock));
  assert.equal(inner, null);
  const stolen = locks.request("db", () => locks.request("db", { steal: true }, () => "mine"));
  await assertRejects(stolen, "AbortError");
  await until(async () => (await locks.query()).held.length === 0);
});

test("each callback is called in a task of its own, between which promises react", async (t) => {
  const server = await startPushing(t);
  const locks = await connectTo(t, server);
  const holding = await hold(locks, "db");
  const order = [];
  const shared = ["one", "two", "three"].map((word) => {
    return locks.request("db", { mode: "shared" }, async () => {
      order.push(word);
      await null;
      order.push(`after ${word}`);
    });
  });
  await untilPending(locks, 3);
  holding.release();
  await Promise.all(shared);
  assert.deepEqual(order, ["one", "after one", "two", "after two", "three", "after three"]);
});

test("a lost signal stays as it is where the lock is released", async (t) => {
  const locks = await connectTo(t, await startPushing(t));
  const holding = await hold(locks, "db");
  const lost = locks.lostSignal(holding.lock);
  assert.equal(locks.lostSignal(holding.lock), lost);
  holding.release();
  await holding.promise;
  await locks.close();
  assert.equal(lost.aborted, false);
});

test("only locks have a lost signal", async (t) => {
  const locks = await connectTo(t, await startPushing(t));
  for (const value of [undefined, null, {}, "db", locks]) assert.throws(() => locks.lostSignal(value), TypeError);
});

test("agents of other origins and other buckets have other locks", async (t) => {
  const server = await startPolled(t);
  const agents = [{}, { origin: "https://b.test" }, { bucket: "inbox" }, { origin: "https://a.test:444" }];
  const holdings = [];
  for (const options of agents) holdings.push(await hold(await connectTo(t, server, options), "db"));
  for (const holding of holdings) holding.release();
  await Promise.all(holdings.map(({ promise }) => promise));
});
