/** A further connection that can't be had: what waits for it, what doesn't, and what isn't ended by it. */

import assert from "node:assert/strict";
import { test } from "node:test";
import { assertFree, assertRejects, hold, sleep, until, untilPending, watch } from "./support/holding.js";
import { connectTo, startRelayed } from "./support/servers.js";
import { useUpSignals } from "./support/used_up.js";

const never = () => assert.fail("its callback was called");
const granted = () => "granted";
const withSignal = () => ({ signal: new AbortController().signal });

/** More handshakes than a client tries in a test. */
const MANY = 1000;

/**
 * A client that holds "kept" and whose connection has used up its signals, at a server that refuses the further one as
 * `refuse` has it do; and another client.
 */
async function startStalled(t, refuse) {
  const server = await startRelayed(t);
  const [locks, other] = [await connectTo(t, server), await connectTo(t, server)];
  const events = [];
  for (const type of ["lost", "stalled"]) {
    locks.addEventListener(type, ({ reason }) => events.push(`${type}: ${reason.name}`));
  }
  const kept = await hold(locks, "kept");
  refuse(server);
  await useUpSignals(locks, other);
  await until(() => events.length > 0);
  return { server, locks, other, events, kept };
}

/** Refuses handshakes as a server does that has no place. */
function refuseForNow(server) {
  server.statuses = new Array(MANY).fill(503);
}

/** Refuses agents as a daemon does whose token isn't for that origin any more. */
function refuseForGood(server) {
  server.closeCode = 1008;
}

/** Checks that the connection is as it was, and so what it holds. */
async function assertUnharmed({ locks, events, kept }) {
  assert.equal(locks.lostSignal(kept.lock).aborted, false);
  kept.release("kept");
  assert.equal(await kept.promise, "kept");
  assert.ok(events.every((event) => event.startsWith("stalled: ")), String(events));
}

test("where it is refused for good, requests that need it reject with why, and the connection goes on", async (t) => {
  const stalled = await startStalled(t, refuseForGood);
  const { server, locks, other } = stalled;
  const fault = await assertRejects(locks.request("db", withSignal(), never), "SecurityError");
  assert.match(fault.message, /doesn't let this client/);
  assert.equal(await locks.request("db", granted), "granted");
  const needing = [watch(locks.request("db", withSignal(), never)), watch(locks.request("free", withSignal(), never))];
  const others = [locks.request("db", granted), locks.request("other", { ifAvailable: true }, granted)];
  const { held } = await locks.query();
  assert.deepEqual(held.map(({ name }) => name).filter((name) => name === "kept"), ["kept"]);
  assert.deepEqual(await Promise.all(others), ["granted", "granted"]);
  for (const promise of needing) assert.equal((await promise.settled).reason.name, "SecurityError");
  await assertUnharmed(stalled);
  assert.deepEqual([...new Set(stalled.events)], ["stalled: SecurityError"]);
  server.closeCode = null;
  assert.equal(await locks.request("db", withSignal(), granted), "granted");
  await assertFree(other);
});

test("a refusal for good is asked for again only by a request that needs the further connection", async (t) => {
  const { server, locks } = await startStalled(t, refuseForGood);
  await assertRejects(locks.request("db", withSignal(), never), "SecurityError");
  const before = server.links;
  for (let round = 0; round < 10; round += 1) assert.equal(await locks.request("db", granted), "granted");
  await locks.query();
  assert.equal(server.links, before);
  await assertRejects(locks.request("db", withSignal(), never), "SecurityError");
  assert.equal(server.links, before + 1);
});

test("while it is tried again after that, only what needs it waits, and those of its name behind it", async (t) => {
  const stalled = await startStalled(t, refuseForGood);
  const { server, locks, other } = stalled;
  await assertRejects(locks.request("db", withSignal(), never), "SecurityError");
  server.closeCode = null;
  server.deafBeyond = server.links;
  const waiting = [watch(locks.request("db", withSignal(), granted)), watch(locks.request("db", granted))];
  assert.equal(await locks.request("free", granted), "granted");
  assert.equal(await locks.request("free", { ifAvailable: true }, granted), "granted");
  assert.deepEqual((await locks.query()).pending, []);
  assert.deepEqual(waiting.map(({ state }) => state), ["pending", "pending"]);
  server.deafBeyond = Infinity;
  server.link(server.links).cut();
  for (const it of waiting) assert.equal((await it.settled).value, "granted");
  await assertUnharmed(stalled);
  await assertFree(other);
});

test("one that is lost before it serves is tried for again after a while, and that is told", async (t) => {
  const server = await startRelayed(t);
  const [locks, other] = [await connectTo(t, server), await connectTo(t, server)];
  let stalls = 0;
  locks.addEventListener("stalled", () => { stalls += 1; });
  const isNext = ({ link, message }) => link > 2 && message.op === "signal";
  const cutting = setInterval(() => server.received.filter(isNext).forEach(({ link }) => server.link(link)?.cut()), 1);
  t.after(() => clearInterval(cutting));
  await useUpSignals(locks, other);
  await until(() => stalls > 0);
  const before = server.links;
  await sleep(1000);
  assert.ok(server.links - before <= 8, `${server.links - before} connections in a second`);
  clearInterval(cutting);
  assert.equal(await locks.request("db", withSignal(), granted), "granted");
  await assertFree(other);
});

test("while it can't be had, only requests with signals wait, and those of the same names behind them", async (t) => {
  const stalled = await startStalled(t, refuseForNow);
  const { server, locks, other } = stalled;
  const order = [];
  const waiting = ["first", "second", "third"].map((word, number) => {
    return watch(locks.request("db", number === 1 ? {} : withSignal(), () => { order.push(word); }));
  });
  for (const options of [{ ifAvailable: true }, { steal: true }]) {
    const fault = await assertRejects(locks.request("db", options, never), "NetworkError");
    assert.match(fault.message, /further connection.*503/);
    assert.equal(await locks.request("free", options, granted), "granted");
  }
  assert.equal(await locks.request("free", granted), "granted");
  assert.deepEqual((await locks.query()).pending, []);
  assert.ok(waiting.every(({ state }) => state === "pending"));
  await assertUnharmed(stalled);
  assert.deepEqual([...new Set(stalled.events)], ["stalled: NetworkError"]);
  server.statuses = [];
  await Promise.all(waiting.map(({ settled }) => settled));
  assert.deepEqual(order, ["first", "second", "third"]);
  await assertFree(other);
});

test("a request that is aborted meanwhile holds up no other of its name", async (t) => {
  const { locks } = await startStalled(t, refuseForNow);
  const before = watch(locks.request("before", withSignal(), never));
  const controller = new AbortController();
  const aborted = watch(locks.request("db", { signal: controller.signal }, never));
  const behind = locks.request("db", granted);
  controller.abort("mine");
  assert.equal(await locks.request("db", { ifAvailable: true }, (lock) => lock), null, "behind the one that waited");
  assert.equal(await behind, "granted");
  assert.equal((await aborted.settled).reason, "mine");
  assert.equal(before.state, "pending");
});

test("a signal that is free again serves those that wait, one after the other", async (t) => {
  const server = await startRelayed(t);
  const [locks, other] = [await connectTo(t, server), await connectTo(t, server)];
  const holding = await hold(other, "db");
  const lent = locks.request("db", withSignal(), granted);
  await untilPending(other, 1);
  const stalled = new Promise((resolve) => locks.addEventListener("stalled", resolve, { once: true }));
  refuseForNow(server);
  await useUpSignals(locks, other, 1);
  await stalled;
  const order = [];
  const names = ["one", "two", "one", "three"];
  const waiting = names.map((name) => locks.request(name, withSignal(), () => { order.push(name); }));
  assert.equal((await locks.query()).pending.length, 1);
  holding.release();
  assert.equal(await lent, "granted");
  await Promise.all(waiting);
  assert.deepEqual(order, names);
  assert.ok(server.statuses.length > 0);
});

test("a change of activity is told to the server behind what waits, and holds up nobody", async (t) => {
  const stalled = await startStalled(t, refuseForNow);
  const { server, locks } = stalled;
  const waiting = watch(locks.request("db", withSignal(), granted));
  await locks.setActive(false);
  await assertRejects(locks.request("free", never), "InvalidStateError");
  await locks.setActive(true);
  assert.equal(await locks.request("free", granted), "granted");
  await locks.setActive(false);
  assert.ok(!server.ops.includes("active"));
  server.statuses = [];
  assert.equal((await waiting.settled).value, "granted");
  const told = () => server.received.filter(({ message }) => message.op === "active");
  await until(() => told().length === 3);
  assert.deepEqual(told().map(({ message }) => message.active), [false, true, false]);
  assert.ok(server.ops.lastIndexOf("request") < server.ops.indexOf("active"));
  await assertUnharmed(stalled);
});

test("whoever hears of it may close the LockManager, by which the tries end", async (t) => {
  const { server, locks } = await startStalled(t, refuseForNow);
  const waiting = watch(locks.request("db", withSignal(), never));
  const stalled = new Promise((resolve) => locks.addEventListener("stalled", resolve, { once: true }));
  await stalled;
  const closed = locks.close();
  const left = server.statuses.length;
  assert.equal((await waiting.settled).reason.name, "AbortError");
  await closed;
  assert.equal(server.statuses.length, left);
});
