/** Signs of life of a port's page, each by itself. */

import assert from "node:assert/strict";
import { test } from "node:test";
import { hold, sleep, until, untilPending } from "../../js/test/support/holding.js";
import { ENGINES } from "./support/engines.js";
import { RawPort, connectTo, doorTo, serve } from "./support/serving.js";

const OPEN = '{"id":1,"op":"open","url":"https://a.test/"}';
const REQUEST = '{"id":2,"op":"request","name":"db"}';

/** Milliseconds between two pings, in the place of 2,000. */
const ROUND = 40;

const [make] = Object.values(ENGINES);

/** The browser's own locks: those of a service of their own, by which the service that is tested is told. */
async function useLocks(t) {
  const door = doorTo(t, serve(await make(t)));
  return { page: await connectTo(t, door), worker: await connectTo(t, door) };
}

test("a port that answers no ping is ended after three rounds, and its locks pass on", async (t) => {
  const door = doorTo(t, serve(await make(t), { round: ROUND, locks: undefined }));
  const silent = new RawPort(t, door);
  const pings = () => silent.objects.filter(({ type }) => type === "ping").length;
  await silent.ask(OPEN);
  const [begun, before] = [performance.now(), pings()];
  await silent.ask(REQUEST);
  const after = pings();
  const waiting = await connectTo(t, door);
  await hold(waiting, "db");
  const passed = performance.now() - begun;
  assert.ok(passed > 2 * ROUND, `it was ended after ${passed} ms`);
  assert.deepEqual(silent.objects.at(-1), { type: "close", code: 1006, reason: "no sign of life" });
  // (where the machine is busy, a ping goes out before the request comes in)
  assert.ok(pings() - before >= 3 && pings() - after <= 3, `of ${pings()} pings ${before} and ${after} were before`);
});

test("a client answers pings by its message handler alone, and keeps its lock", async (t) => {
  const door = doorTo(t, serve(await make(t), { round: ROUND, locks: undefined }));
  const locks = await connectTo(t, door, { heartbeat: 600_000 });
  await hold(locks, "db");
  await sleep(20 * ROUND);
  assert.equal((await locks.query()).held.length, 1);
});

test("a page that holds a lock of the browser's own isn't pinged, and ends with that lock", async (t) => {
  const { page, worker } = await useLocks(t);
  const door = doorTo(t, serve(await make(t), { round: ROUND, locks: worker }));
  const silent = new RawPort(t, door);
  const alive = await hold(page, "its page");
  silent.post({ type: "hold", lock: "its page" });
  await silent.ask(OPEN);
  await silent.ask(REQUEST);
  await untilPending(page, 1);
  const pings = silent.objects.length;
  await sleep(20 * ROUND);
  assert.equal(silent.objects.length, pings);
  const waiting = await connectTo(t, door);
  const granted = hold(waiting, "db");
  await untilPending(waiting, 1);
  alive.release();
  await granted;
  assert.equal(silent.objects.at(-1).code, 1006);
});

test("a page that says that it holds a lock which nobody holds is pinged as before", async (t) => {
  const { page, worker } = await useLocks(t);
  const door = doorTo(t, serve(await make(t), { round: ROUND, locks: worker }));
  const raw = new RawPort(t, door);
  raw.post({ type: "hold", lock: "no page's" });
  await raw.ask(OPEN);
  const { length } = raw.objects;
  await until(() => raw.objects.length > length);
  assert.deepEqual(raw.objects.at(-1), { type: "ping" });
  assert.deepEqual(await page.query(), { held: [], pending: [] });
});

test("a connection that ends by itself waits for no lock any more", async (t) => {
  const { page, worker } = await useLocks(t);
  const service = serve(await make(t), { round: ROUND, locks: worker });
  const door = doorTo(t, service);
  const raw = new RawPort(t, door);
  await hold(page, "its page");
  raw.post({ type: "hold", lock: "its page" });
  await untilPending(page, 1);
  raw.post({ type: "close" });
  await untilPending(page, 0);
});
