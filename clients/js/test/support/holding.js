/** Locks that are held until the test says so, and waiting for what becomes true. */

import assert from "node:assert/strict";
import { setTimeout as sleep } from "node:timers/promises";

/** Nothing in the tests takes longer than these milliseconds, unless it hangs. */
const PATIENCE = 20_000;

/**
 * Requests a lock and waits until it is held.
 *
 * @returns {Promise<{lock: object, promise: Promise, release: (value?: unknown) => void}>} `promise` is the request's
 */
export async function hold(locks, name, options = {}) {
  let release;
  let promise;
  const lock = await new Promise((resolve, reject) => {
    promise = locks.request(name, options, (held) => {
      resolve(held);
      return new Promise((settle) => {
        release = settle;
      });
    });
    promise.catch(reject);
  });
  return { lock, promise, release };
}

/** Waits until the condition holds. */
export async function until(condition) {
  const end = Date.now() + PATIENCE;
  while (!(await condition())) {
    assert.ok(Date.now() < end, `not in ${PATIENCE} ms: ${condition}`);
    await sleep(2);
  }
}

/** Waits until so many requests are pending. */
export async function untilPending(locks, count) {
  await until(async () => (await locks.query()).pending.length === count);
}

/** Checks that nothing is held and nothing is pending. */
export async function assertFree(locks) {
  assert.deepEqual(await locks.query(), { held: [], pending: [] });
}

/** Checks that a promise is rejected with a DOMException of that name. */
export async function assertRejects(promise, name) {
  const fault = await promise.then(
    (value) => assert.fail(`it was fulfilled with ${String(value)}`),
    (reason) => reason,
  );
  assert.ok(fault instanceof DOMException, `it was rejected with ${String(fault)}`);
  assert.equal(fault.name, name);
  return fault;
}

/** A promise that is to be looked at, without that its rejection counts as unhandled. */
export function watch(promise) {
  const watched = { state: "pending" };
  watched.settled = promise.then(
    (value) => Object.assign(watched, { state: "fulfilled", value }),
    (reason) => Object.assign(watched, { state: "rejected", reason }),
  );
  return watched;
}

export { sleep };
