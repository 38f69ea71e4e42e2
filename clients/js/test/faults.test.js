/** What only a service can do rejects with a DOMException of its own name. */

import assert from "node:assert/strict";
import { test } from "node:test";
import { faultOfClose, faultOfRefusal, isFinal } from "../src/faults.js";
import { assertFree, assertRejects } from "./support/holding.js";
import { connectTo, startRelayed } from "./support/servers.js";

test("each refusal of the service is a fault of a name", () => {
  const named = {
    QuotaExceededError: ["name-length", "requests", "signals", "agents", "numbers", "later"].map((rule) => {
      return { name: "Limit", rule };
    }),
    InvalidStateError: [{ name: "InvalidStateError", rule: "inactive" }],
    SecurityError: [{ name: "SecurityError", rule: "opaque-origin" }],
    NotSupportedError: [{ name: "NotSupportedError", rule: "reserved-name" }],
    OperationError: [{ name: "NoSuch", rule: "signal" }, { name: "Memory", rule: "memory" }],
    TypeError: [{ name: "BadUrl", rule: "url" }, { name: "BadBucket", rule: "bucket" }],
  };
  for (const [name, refusals] of Object.entries(named)) {
    for (const refusal of refusals) {
      const fault = faultOfRefusal(refusal);
      assert.equal(fault.name, name);
      assert.ok(fault instanceof (name === "TypeError" ? TypeError : DOMException));
      assert.ok(fault.message.length > 10 && !fault.message.includes("undefined"));
    }
  }
});

test("each end of a connection is a fault of a name", () => {
  assert.equal(faultOfClose(1008, "").name, "SecurityError");
  assert.equal(faultOfClose(1013, "").name, "QuotaExceededError");
  for (const code of [1000, 1001, 1005, 1006, 1011]) assert.equal(faultOfClose(code, "").name, "NetworkError");
  assert.match(faultOfClose(1001, "going away").message, /1001.*going away/);
});

test("there is no sense in trying again where the server doesn't let the page in, or can't read what it says", () => {
  assert.equal(isFinal(faultOfClose(1008, "")), true);
  assert.equal(isFinal(faultOfRefusal({ name: "BadUrl", rule: "url" })), true);
  assert.equal(isFinal(faultOfClose(1013, "")), false);
  assert.equal(isFinal(faultOfClose(1006, "")), false);
});

test("a limit of the service rejects with QuotaExceededError, and the next request goes on", async (t) => {
  const server = await startRelayed(t);
  const locks = await connectTo(t, server);
  const never = () => assert.fail("its callback was called");
  server.refusal = { name: "Limit", rule: "requests" };
  const { signal } = new AbortController();
  await assertRejects(locks.request("db", never), "QuotaExceededError");
  await assertRejects(locks.request("db", { signal }, never), "QuotaExceededError");
  await assertRejects(locks.request("db", { ifAvailable: true }, never), "QuotaExceededError");
  await assertRejects(locks.query(), "QuotaExceededError");
  server.refusal = null;
  assert.equal(await locks.request("db", { signal }, () => "granted"), "granted");
  await assertFree(locks);
});
