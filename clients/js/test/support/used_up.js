/** A client whose connection has no signals left, as many aborted requests leave it. */

import assert from "node:assert/strict";
import { SIGNALS_OF_AGENT } from "../../src/signals.js";
import { hold, until, watch } from "./holding.js";

const NAME = "used up";

/**
 * Has a client's connection use up its signals, just all of them but those that are lent, behind a lock that another
 * client holds meanwhile.
 */
export async function useUpSignals(locks, other, lent = 0) {
  const holding = await hold(other, NAME);
  const controllers = Array.from({ length: SIGNALS_OF_AGENT - lent }, () => new AbortController());
  const promises = controllers.map(({ signal }) => {
    return watch(locks.request(NAME, { signal }, () => assert.fail("its callback was called")));
  });
  await until(async () => (await pendingOf(other)).length === controllers.length);
  for (const controller of controllers) controller.abort("mine");
  await Promise.all(promises.map(({ settled }) => settled));
  holding.release();
  await holding.promise;
}

async function pendingOf(locks) {
  return (await locks.query()).pending.filter(({ name }) => name === NAME);
}
