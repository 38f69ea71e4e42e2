/** close gives up all. */

import assert from "node:assert/strict";
import { test } from "node:test";
import { assertFree, assertRejects, hold, until, untilPending, watch } from "./support/holding.js";
import { connectTo, startRelayed, testWithEach } from "./support/servers.js";

const never = () => assert.fail("its callback was called");

testWithEach("pending and held promises reject with AbortError", async (agent) => {
  const [a, b] = [await agent(), await agent()];
  const other = await hold(a, "other");
  const holding = await hold(b, "db");
  const lost = b.lostSignal(holding.lock);
  const asked = [
    b.request("other", never),
    b.request("other", { signal: new AbortController().signal }, never),
    b.request("other", { ifAvailable: true }, never),
    b.request("other", { steal: true }, never),
    b.query(),
    b.setActive(true),
    holding.promise,
  ].map(watch);
  const closed = b.close();
  for (const promise of asked) assert.equal((await promise.settled).reason?.name, "AbortError");
  assert.equal(lost.aborted, true);
  assert.equal(lost.reason.name, "AbortError");
  await closed;
  watch(other.promise);
});

testWithEach("what was held is free once close has settled", async (agent) => {
  const other = await agent();
  for (let round = 0; round < 10; round += 1) {
    const locks = await agent();
    const holding = await hold(locks, "db");
    watch(holding.promise);
    watch(locks.request("db", never));
    await untilPending(other, 1);
    await locks.close();
    await assertFree(other);
  }
});

testWithEach("closed is a promise of why, which close gives too", async (agent) => {
  const locks = await agent();
  const closed = watch(locks.closed);
  assert.equal(locks.closed, locks.closed);
  await locks.query();
  assert.equal(closed.state, "pending");
  const why = await locks.close();
  assert.equal(why.name, "AbortError");
  assert.equal((await closed.settled).value, why);
  assert.equal(await locks.close(), why);
});

testWithEach("a closed LockManager refuses with InvalidStateError, after the conversions", async (agent) => {
  const locks = await agent();
  locks.close();
  await assertRejects(locks.request("-x", never), "InvalidStateError");
  await assertRejects(locks.query(), "InvalidStateError");
  await assertRejects(locks.setActive(true), "InvalidStateError");
  await assert.rejects(locks.request("x", 5), TypeError);
});

testWithEach("a callback may close the LockManager that called it", async (agent) => {
  const [locks, other] = [await agent(), await agent()];
  const holding = await hold(other, "db");
  const closing = locks.request("db", { ifAvailable: true }, () => {
    locks.close();
    throw new Error("nobody's");
  });
  await assertRejects(closing, "AbortError");
  const again = await agent();
  await assertRejects(again.request("other", () => { again.close(); }), "AbortError");
  await again.closed;
  holding.release();
  await holding.promise;
  await assertFree(other);
});

test("close ends the second connection too", async (t) => {
  const server = await startRelayed(t);
  const [a, b] = [await connectTo(t, server), await connectTo(t, server)];
  const holding = await hold(a, "db");
  const promises = Array.from({ length: 1100 }, () => {
    return watch(b.request("db", { signal: new AbortController().signal }, never));
  });
  await untilPending(a, 1100);
  await b.close();
  for (const promise of promises) assert.equal((await promise.settled).reason.name, "AbortError");
  await untilPending(a, 0);
  await until(() => server.open === 1);
  holding.release();
  await holding.promise;
});
