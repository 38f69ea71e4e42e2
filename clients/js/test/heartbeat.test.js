/** A client knows that it was cut off before its locks pass on. */

import assert from "node:assert/strict";
import { test } from "node:test";
import { SIGNALS_OF_AGENT } from "../src/signals.js";
import { assertRejects, hold, sleep, until, untilPending, watch } from "./support/holding.js";
import { Proxy } from "./support/proxy.js";
import { EACH, connectTo, startPolled, startPushing, startRelayed } from "./support/servers.js";
import { WebSocket } from "./support/sockets.js";

const HEARTBEAT = 500;

/** What a loaded machine is allowed beyond a time, in milliseconds: less than a heartbeat has where none is given. */
const SLACK = 5_000;

/** Holds the event loop up, so that all timers of these milliseconds are due in its next turn. */
function holdUp(time) {
  const end = Date.now() + time;
  while (Date.now() < end);
}

test("each heartbeat one timer of a connection sends a poll", async (t) => {
  const server = await startRelayed(t);
  await connectTo(t, server, { heartbeat: HEARTBEAT });
  await sleep(10.4 * HEARTBEAT);
  const polls = server.ops.filter((op) => op === "poll").length;
  assert.ok(polls >= 5 && polls <= 11, `${polls} polls in 10 heartbeats`);
});

for (const [how, start] of Object.entries(EACH)) {
  test(`a stopped server is noticed, and its client's locks are lost (${how})`, async (t) => {
    const server = await start(t);
    const locks = await connectTo(t, server, { heartbeat: HEARTBEAT });
    const holding = await hold(locks, "db");
    const lost = locks.lostSignal(holding.lock);
    let event = null;
    locks.addEventListener("lost", (heard) => { event = heard; });
    process.kill(server.pid, "SIGSTOP");
    const before = Date.now();
    const fault = await assertRejects(holding.promise, "NetworkError");
    const took = Date.now() - before;
    process.kill(server.pid, "SIGCONT");
    assert.ok(took >= HEARTBEAT / 2, `it was noticed after ${took} ms`);
    assert.ok(took <= 3 * HEARTBEAT + SLACK, `it was noticed after ${took} ms`);
    assert.equal(lost.aborted, true);
    assert.equal(lost.reason, fault);
    await until(() => event !== null);
    assert.equal(event.type, "lost");
    assert.equal(event.reason, fault);
  });
}

test("dropped packets are noticed, though neither side's system is told", async (t) => {
  const proxy = await Proxy.start(t, await startPushing(t));
  const locks = await connectTo(t, proxy, { heartbeat: HEARTBEAT, reconnect: false });
  const holding = await hold(locks, "db");
  await sleep(3 * HEARTBEAT);
  assert.equal(watch(holding.promise).state, "pending");
  proxy.swallows = true;
  const before = Date.now();
  await assertRejects(holding.promise, "NetworkError");
  assert.ok(Date.now() - before <= 3 * HEARTBEAT + SLACK);
  assert.match((await locks.closed).message, /doesn't answer/);
});

test("pushes are no sign of life: only replies are", async (t) => {
  const server = await startRelayed(t);
  const locks = await connectTo(t, server, { heartbeat: HEARTBEAT, reconnect: false });
  const holding = await hold(locks, "db");
  server.isDeaf = true;
  const pushing = setInterval(() => server.pushToAll([]), 10);
  t.after(() => clearInterval(pushing));
  await assertRejects(holding.promise, "NetworkError");
});

test("a server that is slow, but answers, isn't lost", async (t) => {
  const server = await startRelayed(t);
  server.delay = 1.5 * HEARTBEAT;
  const locks = await connectTo(t, server, { heartbeat: 2 * HEARTBEAT });
  const holding = await hold(locks, "db");
  await sleep(8 * HEARTBEAT);
  holding.release("kept");
  assert.equal(await holding.promise, "kept");
});

test("a client whose own event loop was held up reads first what has come", async (t) => {
  const locks = await connectTo(t, await startPolled(t), { heartbeat: HEARTBEAT });
  const holding = await hold(locks, "db");
  for (let round = 0; round < 3; round += 1) {
    await sleep(1.1 * HEARTBEAT);
    holdUp(1.5 * HEARTBEAT);
  }
  holding.release("kept");
  assert.equal(await holding.promise, "kept");
});

test("two connections of a client that are lost in one turn are one loss, and what waits is asked again", async (t) => {
  const server = await startPushing(t);
  const [a, b] = [await connectTo(t, server), await connectTo(t, server, { heartbeat: HEARTBEAT })];
  const holding = await hold(a, "db");
  const count = SIGNALS_OF_AGENT + 50;
  const order = [];
  const waiting = Array.from({ length: count }, (_, number) => {
    return watch(b.request("db", { signal: new AbortController().signal }, () => { order.push(number); }));
  });
  await untilPending(a, count);
  assert.equal(new Set((await a.query()).pending.map(({ clientId }) => clientId)).size, 2);
  const [lost, restored] = ["lost", "restored"].map((type) => new Promise((resolve) => {
    b.addEventListener(type, () => resolve(type), { once: true });
  }));
  process.kill(server.pid, "SIGSTOP");
  try {
    // In one turn both connections ask for a sign of life, and in another both miss it.
    for (let turn = 0; turn < 2; turn += 1) {
      holdUp(1.2 * HEARTBEAT);
      await sleep(1);
    }
    await lost;
  } finally {
    process.kill(server.pid, "SIGCONT");
  }
  assert.equal(await Promise.race([restored, b.closed]), "restored");
  holding.release();
  await Promise.all(waiting.map(({ settled }) => settled));
  assert.deepEqual(order, Array.from({ length: count }, (_, number) => number));
});

test("a handshake that isn't answered is given up", async (t) => {
  const proxy = await Proxy.start(t, await startPolled(t));
  proxy.swallows = true;
  const before = Date.now();
  await assertRejects(connectTo(t, proxy, { heartbeat: HEARTBEAT }), "NetworkError");
  assert.ok(Date.now() - before <= 4 * HEARTBEAT + SLACK);
});

test("a handshake that was answered while its client's event loop was held up isn't given up", async (t) => {
  class HeldUp extends WebSocket {
    constructor(...words) {
      super(...words);
      setImmediate(() => holdUp(1.5 * HEARTBEAT));
    }
  }
  const locks = await connectTo(t, await startPushing(t), { heartbeat: HEARTBEAT, WebSocket: HeldUp });
  assert.deepEqual((await locks.query()).held, []);
});

test("an opening that isn't answered is given up", async (t) => {
  const server = await startRelayed(t);
  server.isDeaf = true;
  await assertRejects(connectTo(t, server, { heartbeat: HEARTBEAT }), "NetworkError");
});

test("1,000 requests pending cost no timers", async (t) => {
  for (const server of [await startPushing(t), await startPolled(t)]) {
    const [a, b] = [await connectTo(t, server), await connectTo(t, server)];
    const holding = await hold(a, "db");
    const timers = () => process.getActiveResourcesInfo().filter((name) => name === "Timeout").length;
    const before = timers();
    const promises = Array.from({ length: 1000 }, () => b.request("db", () => {}));
    await until(async () => (await a.query()).pending.length === 1000);
    assert.ok(timers() <= before + 2, `${timers()} timers instead of ${before}`);
    holding.release();
    await Promise.all(promises);
  }
});
