/** One call of request, by itself: what it does with grants, losses and ends, in whatever order they come. */

import assert from "node:assert/strict";
import { setImmediate as turn } from "node:timers/promises";
import { test } from "node:test";
import { Call, lostSignalOf } from "../src/call.js";
import { abortError, networkError } from "../src/faults.js";
import { watch } from "./support/holding.js";

/** A call, and what it told. */
function makeCall(options = {}) {
  const told = [];
  const callback = (lock) => {
    told.push("called");
    made.lock = lock;
    return made.returned;
  };
  const asked = { name: "db", mode: "exclusive", ifAvailable: false, steal: false, callback, ...options };
  const call = new Call(asked, {
    onAbort: () => told.push("aborted"),
    onReturn: () => told.push("returned"),
    onEnd: () => told.push("ended"),
  });
  const made = { call, told, promise: watch(call.promise), lock: undefined, returned: "value" };
  return made;
}

test("a grant calls the callback in a later task, and the promise settles once the release is answered", async () => {
  const { call, told, promise } = makeCall();
  assert.equal(call.grant(), true);
  assert.deepEqual(told, []);
  await turn();
  assert.deepEqual(told, ["called", "returned"]);
  assert.equal(promise.state, "pending");
  call.finish();
  await promise.settled;
  assert.equal(promise.value, "value");
  assert.deepEqual(told, ["called", "returned", "ended"]);
});

test("a grant that is lost before the callback was called doesn't call it, and the next one does", async () => {
  const made = makeCall();
  const { call, told } = made;
  call.grant("first");
  call.waitAgain();
  await turn();
  assert.deepEqual(told, []);
  call.grant("second");
  call.waitAgain();
  call.grant("third");
  await turn();
  await turn();
  assert.deepEqual(told, ["called", "returned"]);
  assert.equal(made.lock.fence, "third");
});

test("a theft before the callback was called rejects, and the callback isn't called", async () => {
  const { call, told, promise } = makeCall();
  call.grant();
  const fault = abortError("stolen");
  call.end(fault);
  await turn();
  assert.deepEqual(told, ["ended"]);
  assert.equal((await promise.settled).reason, fault);
});

test("an abort between a grant and the callback rejects, and the callback isn't called", async () => {
  const controller = new AbortController();
  const { call, told, promise } = makeCall({ signal: controller.signal });
  call.grant();
  controller.abort("mine");
  assert.equal(call.grant(), false, "the lock is to be released");
  await turn();
  assert.deepEqual(told, ["aborted", "ended"]);
  assert.equal((await promise.settled).reason, "mine");
});

test("an end is one: what comes later changes nothing", async () => {
  const made = makeCall();
  const { call, told, promise } = made;
  made.returned = new Promise(() => {});
  call.grant();
  await turn();
  const fault = networkError("lost");
  call.end(fault);
  call.end(abortError("later"));
  call.finish();
  call.tellUnavailable();
  await turn();
  assert.deepEqual(told, ["called", "ended"]);
  assert.equal((await promise.settled).reason, fault);
});

test("a lost signal that is asked for after the loss is aborted", async () => {
  const made = makeCall();
  made.returned = new Promise(() => {});
  made.call.grant();
  await turn();
  const fault = networkError("lost");
  made.call.end(fault);
  assert.equal(lostSignalOf(made.lock).aborted, true);
  assert.equal(lostSignalOf(made.lock).reason, fault);
  await made.promise.settled;
});
