/** Conversions as Web IDL says, in its order; then the method's own refusals in the standard's order. */

import assert from "node:assert/strict";
import { before, test } from "node:test";
import { Lock, LockManager } from "../weblocks.js";
import { assertFree, assertRejects, hold, watch } from "./support/holding.js";
import { allTests, connectTo, startPushing, startRelayed } from "./support/servers.js";

const all = allTests();
let server;
let locks;

before(async () => {
  server = await startRelayed(all);
  locks = await connectTo(all, server);
});

const nothing = () => {};

/** An object whose reading is written down. */
function spied(members) {
  const read = [];
  const options = {};
  for (const [name, value] of Object.entries(members)) {
    Object.defineProperty(options, name, { get: () => (read.push(name), value) });
  }
  return { options, read };
}

test("fewer than two arguments are a TypeError", async () => {
  await assert.rejects(locks.request(), TypeError);
  await assert.rejects(locks.request("db"), TypeError);
  await assert.rejects(locks.request("-db"), TypeError);
});

test("a refusal is a rejected promise, and never thrown", () => {
  const refused = [[], ["db"], ["db", 5], [Symbol("s"), nothing], ["-x", nothing], ["db", { signal: null }, nothing]];
  for (const given of refused) {
    const promise = locks.request(...given);
    assert.ok(promise instanceof Promise);
    promise.catch(nothing);
  }
});

test("the name is converted by ToString", async () => {
  assert.equal(await locks.request(5, (lock) => lock.name), "5");
  assert.equal(await locks.request(null, (lock) => lock.name), "null");
  assert.equal(await locks.request(undefined, (lock) => lock.name), "undefined");
  assert.equal(await locks.request({ toString: () => "text" }, (lock) => lock.name), "text");
  assert.equal(await locks.request("", (lock) => lock.name), "");
  await assert.rejects(locks.request(Symbol("s"), nothing), TypeError);
  const thrown = { of: "toString" };
  const throwing = { toString() { throw thrown; } };
  await assert.rejects(locks.request(throwing, nothing), (fault) => fault === thrown);
});

test("name, options and callback are converted in this order", async () => {
  const order = [];
  const name = { toString: () => (order.push("name"), "-x") };
  const options = { get mode() { order.push("mode"); return "exclusive"; } };
  await assert.rejects(locks.request(name, options, 5), TypeError);
  assert.deepEqual(order, ["name", "mode"]);
  await assert.rejects(locks.request(Symbol("s"), options, nothing), TypeError);
  assert.deepEqual(order, ["name", "mode"]);
});

test("the options are a dictionary, read in the order of its members", async () => {
  const { options, read } = spied({ steal: false, signal: undefined, mode: "shared", ifAvailable: false, more: 1 });
  assert.equal(await locks.request("db", options, (lock) => lock.mode), "shared");
  assert.deepEqual(read, ["ifAvailable", "mode", "signal", "steal"]);
});

test("each member is converted before the next is read", async () => {
  const { options, read } = spied({ ifAvailable: 1, mode: "odd", signal: null, steal: true });
  await assert.rejects(locks.request("db", options, nothing), TypeError);
  assert.deepEqual(read, ["ifAvailable", "mode"]);
});

test("options of null or undefined are the empty ones, and other values none", async () => {
  assert.equal(await locks.request("db", null, (lock) => lock.mode), "exclusive");
  assert.equal(await locks.request("db", undefined, (lock) => lock.mode), "exclusive");
  assert.equal(await locks.request("db", () => {}, (lock) => lock.mode), "exclusive");
  for (const options of [5, "shared", true, Symbol("s"), 5n]) {
    await assert.rejects(locks.request("db", options, nothing), TypeError);
  }
});

test("ifAvailable and steal are converted by ToBoolean", async () => {
  const holding = await hold(locks, "taken");
  assert.equal(await locks.request("taken", { ifAvailable: "yes" }, (lock) => lock), null);
  assert.equal(await locks.request("taken", { ifAvailable: [], steal: 0 }, (lock) => lock), null);
  holding.release();
  await holding.promise;
});

test("the mode is one of two words", async () => {
  assert.equal(await locks.request("db", { mode: { toString: () => "shared" } }, (lock) => lock.mode), "shared");
  for (const mode of ["Shared", "", null, 5, Symbol("s")]) {
    await assert.rejects(locks.request("db", { mode }, nothing), TypeError);
  }
});

test("signal: null is a TypeError, as is all that isn't an AbortSignal", async () => {
  const likeness = { aborted: false, addEventListener() {}, __proto__: AbortSignal.prototype };
  for (const signal of [null, {}, 5, "abort", new AbortController(), new EventTarget(), likeness]) {
    await assert.rejects(locks.request("db", { signal }, nothing), TypeError);
  }
});

test("a callback that isn't a function is a TypeError before the name is looked at", async () => {
  await assert.rejects(locks.request("-x", {}, 5), TypeError);
  await assert.rejects(locks.request("-x", {}), TypeError);
  await assert.rejects(locks.request("-x", {}, undefined), TypeError);
  await assert.rejects(locks.request("-x", nothing, {}), TypeError);
});

test("a name that starts with '-' is refused first", async () => {
  const all = { ifAvailable: true, mode: "shared", signal: AbortSignal.abort(), steal: true };
  await assertRejects(locks.request("-", nothing), "NotSupportedError");
  await assertRejects(locks.request("-x", all, nothing), "NotSupportedError");
});

test("steal with ifAvailable, steal of a shared lock, and a signal with either are refused", async () => {
  const signal = AbortSignal.abort("mine");
  const refused = [
    { steal: true, ifAvailable: true },
    { steal: true, mode: "shared" },
    { steal: true, signal },
    { ifAvailable: true, signal },
  ];
  for (const options of refused) await assertRejects(locks.request("db", options, nothing), "NotSupportedError");
});

test("each refusal comes at once, without asking the service", async () => {
  const before = server.received.length;
  const signal = AbortSignal.abort("mine");
  const refused = [
    ["db"], ["db", {}, 5], ["db", { mode: "odd" }, nothing], ["-x", nothing],
    ["db", { steal: true, ifAvailable: true }, nothing], ["db", { steal: true, mode: "shared" }, nothing],
    ["db", { steal: true, signal }, nothing], ["db", { ifAvailable: true, signal }, nothing],
    ["db", { signal }, nothing], ["a".repeat(1025), nothing],
  ].map((given) => watch(locks.request(...given)));
  for (let turn = 0; turn < 3; turn += 1) await null;
  for (const { state } of refused) assert.equal(state, "rejected");
  await assertFree(locks);
  assert.deepEqual(server.ops.slice(before), ["query"]);
});

test("a method of another object is a TypeError, by a rejected promise", async () => {
  await assert.rejects(locks.request.call({}, Symbol("s"), nothing), TypeError);
  await assert.rejects(LockManager.prototype.query.call(new EventTarget()), TypeError);
});

test("LockManager and Lock look as those of the platform do", async () => {
  assert.equal(String(locks), "[object LockManager]");
  assert.equal(LockManager.prototype.request.length, 2);
  assert.equal(LockManager.prototype.query.length, 0);
  assert.throws(() => new LockManager(), TypeError);
  assert.throws(() => new Lock(), TypeError);
  await locks.request("db", { mode: "shared" }, (lock) => {
    assert.ok(lock instanceof Lock);
    assert.equal(String(lock), "[object Lock]");
    const members = [];
    for (const member in lock) members.push(member);
    assert.deepEqual(members.sort(), ["mode", "name"]);
    assert.throws(() => Object.getOwnPropertyDescriptor(Lock.prototype, "name").get.call({}), TypeError);
  });
});

test("an inactive window's requests are refused before all else, but not before the conversions", async (t) => {
  const locks = await connectTo(t, await startPushing(t));
  await locks.setActive(false);
  await assertRejects(locks.request("-x", () => {}), "InvalidStateError");
  await assert.rejects(locks.request("-x", {}, 5), TypeError);
  await assertRejects(locks.query(), "InvalidStateError");
  await locks.setActive(true);
  await assertRejects(locks.request("-x", () => {}), "NotSupportedError");
  assert.equal(await locks.request("x", () => 1), 1);
});

test("a window that was made inactive is refused from the call of setActive on", async (t) => {
  const locks = await connectTo(t, await startPushing(t));
  const done = locks.setActive(false);
  await assertRejects(locks.request("x", () => {}), "InvalidStateError");
  await done;
});

test("a worker can't be made inactive", async (t) => {
  const locks = await connectTo(t, await startPushing(t), { kind: "worker" });
  await assertRejects(locks.setActive(false), "InvalidStateError");
  assert.equal(await locks.request("x", () => 1), 1);
});

test("an opaque origin's requests are refused with SecurityError, after InvalidStateError", async (t) => {
  const server = await startPushing(t);
  for (const origin of ["data:,x", "file:///tmp/x", "null"]) {
    const locks = await connectTo(t, server, { origin });
    await assertRejects(locks.request("-x", () => {}), "SecurityError");
    await assertRejects(locks.query(), "SecurityError");
    await assert.rejects(locks.request("x", 5), TypeError);
    await locks.setActive(false);
    await assertRejects(locks.request("-x", () => {}), "InvalidStateError");
  }
});
