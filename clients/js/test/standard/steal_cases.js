/** What `steal` does to those who hold a lock or wait (Web Locks, *request a lock*, *LockOptions.steal*). */

import { expectEqual, expectException, expectSame, expectTrue, outcome, rejection } from "./expecting.js";
import { deferred, hold, holdAll, isFree, isPending, modesOf, settled, wait } from "./holding.js";

const STEAL = { steal: true };
const SHARED = { mode: "shared" };

export const stealCases = {
  async "a steal rejects the holder's promise with an AbortError"({ agents }) {
    const [own, other] = await agents(2);
    const held = await hold(own, "stolen");
    const thief = await hold(other, "stolen", STEAL);
    const reason = await rejection("the holder's request", held.ended);
    expectException("the reason", reason, own.realm, "AbortError");
    await thief.release();
  },

  async "the thief has the lock at once, and alone"({ agents }) {
    const [own, other] = await agents(2);
    await hold(own, "alone");
    const thief = await hold(other, "alone", STEAL);
    const lock = await thief.granted;
    expectEqual("the lock", [lock.name, lock.mode], ["alone", "exclusive"]);
    expectEqual("what is there", await modesOf(other, "alone"), { held: ["exclusive"], pending: [] });
    expectTrue("whether it is free", !(await isFree(own, "alone")));
    expectEqual("how the thief ends", await thief.release("value"), { value: "value" });
    expectTrue("whether it is free", await isFree(own, "alone"));
  },

  async "the callback of a holder who was robbed runs on, and what it gives plays no part"({ agents }) {
    const [own, other] = await agents(2);
    const called = deferred();
    const body = deferred();
    const steps = [];
    const request = own.locks.request("runs on", async () => {
      called.resolve();
      await body.promise;
      steps.push("it ran on");
      return "its value";
    });
    const ended = outcome(request);
    await called.promise;
    const thief = await hold(other, "runs on", STEAL);
    expectSame("the holder's reason", (await ended).reason?.name, "AbortError");
    body.resolve();
    await settled(own);
    expectEqual("its steps", steps, ["it ran on"]);
    expectTrue("whether the thief's lock is free", !(await isFree(own, "runs on")));
    await thief.release();
  },

  async "a callback of a holder who was robbed may reject, and its request keeps its AbortError"({ agents }) {
    const [own, other] = await agents(2);
    const held = await hold(own, "rejects");
    const thief = await hold(other, "rejects", STEAL);
    const ended = await held.fail(new Error("behind the steal"));
    expectException("the reason", ended.reason, own.realm, "AbortError");
    expectTrue("whether the thief's lock is free", !(await isFree(own, "rejects")));
    await thief.release();
  },

  async "a steal takes all shared locks"({ agents }) {
    const [own, other] = await agents(2);
    const held = await holdAll([own, "shared", SHARED], [other, "shared", SHARED], [own, "shared", SHARED]);
    const thief = await hold(other, "shared", STEAL);
    for (const it of held) {
      expectSame("the holder's reason", (await rejection("it", it.ended)).name, "AbortError");
    }
    expectEqual("what is there", await modesOf(own, "shared"), { held: ["exclusive"], pending: [] });
    await thief.release();
  },

  async "those who wait are passed by, and wait behind the thief"({ agents }) {
    const [own, other] = await agents(2);
    await hold(own, "passed");
    const waits = [await wait(own, "passed"), await wait(other, "passed", SHARED)];
    const thief = await hold(other, "passed", STEAL);
    const found = await modesOf(own, "passed");
    expectEqual("what is there", found, { held: ["exclusive"], pending: ["exclusive", "shared"] });
    expectTrue("whether the first waits", await isPending(own, waits[0].granted));
    await thief.release();
    await waits[0].granted;
    await waits[0].release();
    await waits[1].granted;
    await waits[1].release();
  },

  async "a steal of a lock that is free is a grant"({ agents }) {
    const [own] = await agents(1);
    expectSame("what it gives", await own.locks.request("free", STEAL, (lock) => lock.mode), "exclusive");
  },

  async "a steal passes by shared requests that wait for an exclusive one"({ agents }) {
    const [own, other] = await agents(2);
    const held = await hold(own, "mixed", SHARED);
    const waits = await wait(own, "mixed");
    const thief = await hold(other, "mixed", STEAL);
    expectSame("the holder's reason", (await rejection("it", held.ended)).name, "AbortError");
    await thief.release();
    await waits.granted;
    await waits.release();
  },

  async "an agent may steal from itself"({ agents }) {
    const [own] = await agents(1);
    const held = await hold(own, "itself");
    const thief = await hold(own, "itself", STEAL);
    expectSame("the holder's reason", (await rejection("it", held.ended)).name, "AbortError");
    await thief.release();
  },

  async "a stolen lock may be stolen from the thief"({ agents }) {
    const [own, other] = await agents(2);
    const [first, second, third] = await holdAll(
      [own, "in turn", STEAL],
      [other, "in turn", STEAL],
      [own, "in turn", STEAL],
    );
    for (const it of [first, second]) {
      expectSame("the reason", (await rejection("it", it.ended)).name, "AbortError");
    }
    expectEqual("how the third ends", await third.release("third"), { value: "third" });
  },

  async "a steal touches no other name"({ agents }) {
    const [own, other] = await agents(2);
    const held = await hold(own, "one");
    await other.locks.request("another", STEAL, () => {});
    expectTrue("whether the holder's request is pending", await isPending(own, held.ended));
    expectEqual("how it ends", await held.release("kept"), { value: "kept" });
  },

  async "a steal may be undone by the holder's end, and never gives two holders"({ agents }) {
    const [own, other] = await agents(2);
    for (let turn = 0; turn < 30; turn += 1) {
      const held = await hold(own, "race");
      const stolen = other.locks.request("race", STEAL, (lock) => lock.name);
      const [ended, name] = await Promise.all([held.release("value"), stolen]);
      expectSame("the thief's lock", name, "race");
      expectTrue("whether the holder ended", ended.value === "value" || ended.reason?.name === "AbortError");
    }
    await settled(other);
    expectEqual("what is left", await modesOf(own, "race"), { held: [], pending: [] });
  },

  async "a robbed agent may ask again, and comes behind the thief"({ agents }) {
    const [own, other] = await agents(2);
    const held = await hold(own, "again");
    const thief = await hold(other, "again", STEAL);
    await outcome(held.ended);
    const again = await wait(own, "again");
    expectTrue("whether it waits", await isPending(own, again.granted));
    await thief.release();
    await again.granted;
    await again.release();
  },
};
