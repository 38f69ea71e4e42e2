/** What becomes of the connection before, once the further one serves, and of what it was still asked. */

import assert from "node:assert/strict";
import { test } from "node:test";
import { assertFree, hold, sleep, until, watch } from "./support/holding.js";
import { connectTo, startRelayed } from "./support/servers.js";
import { useUpSignals } from "./support/used_up.js";

const granted = () => "granted";

/** The numbers of the relay's connections, in the order in which they come. */
const FIRST = 1;
const FURTHER = 3;

/** The messages' words that came over a connection. */
function opsOver(server, number) {
  return server.received.filter(({ link }) => link === number).map(({ message }) => message.op);
}

/** Milliseconds in which what is on its way within this machine has come. */
const SOON = 100;

/**
 * A client whose first connection has used up its signals, just all of them, so that the next request with one goes
 * over the further connection, which is there; and another client.
 */
async function startUsedUp(t) {
  const server = await startRelayed(t);
  const [locks, other] = [await connectTo(t, server), await connectTo(t, server)];
  await useUpSignals(locks, other);
  await until(() => opsOver(server, FURTHER).includes("signal"));
  await sleep(SOON);
  const lost = [];
  locks.addEventListener("lost", ({ reason }) => lost.push(reason.name));
  return { server, locks, other, lost };
}

/** A request that has the further connection serve. */
function goOn(locks) {
  return watch(locks.request("further", { signal: new AbortController().signal }, granted));
}

/** Waits until a promise is settled, which it may never be. */
async function untilSettled(promise) {
  await until(() => promise.state !== "pending");
}

const QUESTIONS = { "a query": (locks) => locks.query(), "a change of activity": (locks) => locks.setActive(true) };

for (const [what, ask] of Object.entries(QUESTIONS)) {
  test(`${what} that goes with the connection before rejects with NetworkError, and what waits is asked again`,
    async (t) => {
      const { server, locks, lost } = await startUsedUp(t);
      const first = server.link(FIRST);
      first.holdBack();
      const before = server.received.length;
      const question = watch(ask(locks));
      const request = goOn(locks);
      const behind = watch(locks.request("behind", granted));
      await until(() => server.received.length > before);
      first.cut();
      await untilSettled(question);
      assert.equal(question.reason?.name, "NetworkError");
      for (const promise of [request, behind]) {
        await untilSettled(promise);
        assert.equal(promise.value, "granted");
      }
      assert.deepEqual(lost, ["NetworkError"]);
      await assertFree(locks);
    });

  test(`${what} is answered before the connection before is closed`, async (t) => {
    const { server, locks, other, lost } = await startUsedUp(t);
    const first = server.link(FIRST);
    first.holdBack();
    const question = watch(ask(locks));
    const request = goOn(locks);
    await sleep(SOON);
    assert.ok(!opsOver(server, FIRST).includes("close"));
    first.letGo();
    await until(() => opsOver(server, FIRST).includes("close"));
    assert.equal(question.state, "fulfilled");
    assert.equal((await request.settled).value, "granted");
    await until(() => server.open === 2);
    assert.deepEqual(lost, []);
    await assertFree(other);
  });
}

test("the loss of the connection before is told to nobody once it has nothing more to answer", async (t) => {
  const { server, locks, lost } = await startUsedUp(t);
  const first = server.link(FIRST);
  first.holdBack();
  const holding = await hold(locks, "further", { signal: new AbortController().signal });
  await until(() => opsOver(server, FIRST).includes("close"));
  first.cut();
  await until(() => server.open === 2);
  await sleep(SOON);
  assert.equal((await locks.query()).held.length, 1);
  assert.equal(locks.lostSignal(holding.lock).aborted, false);
  holding.release("kept");
  assert.equal(await holding.promise, "kept");
  assert.deepEqual(lost, []);
});

test("a release that waits for its turn holds up nothing where the lock is stolen and its connection closed",
  async (t) => {
    const { server, locks, other, lost } = await startUsedUp(t);
    const kept = await hold(locks, "kept");
    await goOn(locks).settled;
    const further = server.link(FURTHER);
    further.holdBack();
    const query = watch(locks.query());
    // (over the first connection, and so not before the query over the further one is answered)
    kept.release();
    const stolen = watch(kept.promise);
    await other.request("kept", { steal: true }, () => {});
    await until(() => server.open === 2);
    assert.equal((await stolen.settled).reason.name, "AbortError");
    further.letGo();
    await query.settled;
    const later = watch(locks.request("kept", granted));
    await untilSettled(later);
    assert.equal(later.value, "granted");
    assert.deepEqual(lost, []);
  });
