/** What query shows. */

import assert from "node:assert/strict";
import { assertFree, hold, untilPending, watch } from "./support/holding.js";
import { testWithEach } from "./support/servers.js";

testWithEach("query gives held and pending, each with name, mode and clientId", async (agent) => {
  const [a, b] = [await agent(), await agent()];
  assert.deepEqual(await a.query(), { held: [], pending: [] });
  const holdings = [await hold(a, "one"), await hold(b, "two", { mode: "shared" })];
  const waiting = [b.request("one", { mode: "shared" }, () => {}), a.request("two", () => {})];
  await untilPending(a, 2);
  const { held, pending } = await a.query();
  const [ofA, ofB] = [held[0].clientId, held[1].clientId];
  assert.notEqual(ofA, ofB);
  assert.deepEqual(held, [
    { clientId: ofA, mode: "exclusive", name: "one" },
    { clientId: ofB, mode: "shared", name: "two" },
  ]);
  assert.deepEqual(pending, [
    { clientId: ofB, mode: "shared", name: "one" },
    { clientId: ofA, mode: "exclusive", name: "two" },
  ]);
  assert.deepEqual(await b.query(), { held, pending });
  for (const { release } of holdings) release();
  await Promise.all([...waiting, ...holdings.map(({ promise }) => promise)]);
  await assertFree(b);
});

testWithEach("a snapshot is the caller's own: to change it changes nothing", async (agent) => {
  const locks = await agent();
  const holding = await hold(locks, "db");
  const snapshot = await locks.query();
  snapshot.held.length = 0;
  assert.equal((await locks.query()).held.length, 1);
  holding.release();
  await holding.promise;
});

testWithEach("a request shows as held from its grant on, until its promise has settled", async (agent) => {
  const [a, b] = [await agent(), await agent()];
  const shown = async () => (await b.query()).held.map(({ name }) => name);
  const inside = await a.request("db", async () => shown());
  assert.deepEqual(inside, ["db"]);
  assert.deepEqual(await shown(), []);
  const holding = await hold(a, "db");
  const promise = watch(holding.promise);
  holding.release();
  await promise.settled;
  assert.deepEqual(await shown(), []);
});
