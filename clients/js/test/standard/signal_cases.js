/** What an AbortSignal does before, while and after a request waits (Web Locks, *signal to abort the request*; DOM). */

import { expectEqual, expectException, expectSame, expectTrue, outcome, rejection } from "./expecting.js";
import { Holder, hold, isFree, isPending, modesOf, settled, wait } from "./holding.js";

const nothing = () => {};

/** A request that is aborted in the same turn rejects with the reason, and its callback never runs. */
async function expectAbortedBehindCall(agent, other) {
  const controller = new AbortController();
  const reason = { an: "object" };
  let calls = 0;
  const promise = agent.locks.request("right behind", { signal: controller.signal }, () => (calls += 1));
  controller.abort(reason);
  const found = await outcome(promise);
  await settled(agent);
  expectSame("the calls", calls, 0);
  expectSame("the reason", found.reason, reason);
  // (what was granted meanwhile is released, which another agent may have to wait for)
  expectSame("what the next gives", await other.locks.request("right behind", () => "next"), "next");
}

export const signalCases = {
  async "a signal that is aborted rejects with its reason"({ agents }) {
    const [own] = await agents(1);
    for (const reason of [new Error("own"), { an: "object" }, "text", 0, null, false, Symbol("reason")]) {
      const promise = own.locks.request("aborted", { signal: AbortSignal.abort(reason) }, nothing);
      expectSame("the reason", await rejection("it", promise), reason);
    }
  },

  async "a signal that is aborted without a reason rejects with its AbortError"({ agents }) {
    const [own] = await agents(1);
    const signal = AbortSignal.abort();
    const reason = await rejection("it", own.locks.request("aborted", { signal }, nothing));
    expectSame("the reason", reason, signal.reason);
    expectException("the reason", reason, globalThis, "AbortError");
  },

  async "a signal that is aborted rejects at once"({ agents }) {
    const [own] = await agents(1);
    const order = [];
    outcome(own.locks.request("at once", { signal: AbortSignal.abort() }, nothing)).then(() => order.push("rejected"));
    for (let turn = 0; turn < 10; turn += 1) {
      await null;
    }
    order.push("ten microtasks later");
    expectEqual("the order", order, ["rejected", "ten microtasks later"]);
  },

  async "a request with an aborted signal asks for nothing"({ agents }) {
    const [own, other] = await agents(2);
    const held = await hold(other, "nothing");
    const refused = new Holder(own, "nothing", { signal: AbortSignal.abort() });
    await outcome(refused.ended);
    expectEqual("what is there", await modesOf(own, "nothing"), { held: ["exclusive"], pending: [] });
    await held.release();
    await settled(own);
    expectSame("the calls", refused.calls, 0);
  },

  async "an abort while the request waits rejects it with the caller's own reason"({ agents }) {
    const [own, other] = await agents(2);
    const held = await hold(other, "reasons");
    for (const reason of [new Error("own"), { an: "object" }, "text", 7, null, Symbol("reason")]) {
      const controller = new AbortController();
      const waits = await wait(own, "reasons", { signal: controller.signal });
      controller.abort(reason);
      expectSame("the reason", await rejection("it", waits.ended), reason);
      expectSame("the calls", waits.calls, 0);
    }
    await held.release();
  },

  async "an abort without a reason rejects with the signal's AbortError"({ agents }) {
    const [own, other] = await agents(2);
    const held = await hold(other, "default");
    const controller = new AbortController();
    const waits = await wait(own, "default", { signal: controller.signal });
    controller.abort();
    const reason = await rejection("it", waits.ended);
    expectSame("the reason", reason, controller.signal.reason);
    expectException("the reason", reason, globalThis, "AbortError");
    await held.release();
  },

  async "an abort while the request waits rejects at once"({ agents }) {
    const [own, other] = await agents(2);
    const held = await hold(other, "at once");
    const controller = new AbortController();
    const waits = await wait(own, "at once", { signal: controller.signal });
    const order = [];
    outcome(waits.ended).then(() => order.push("rejected"));
    controller.abort();
    for (let turn = 0; turn < 10; turn += 1) {
      await null;
    }
    order.push("ten microtasks later");
    expectEqual("the order", order, ["rejected", "ten microtasks later"]);
    await held.release();
  },

  async "a timeout's signal rejects a request that waits with a TimeoutError"({ agents }) {
    const [own, other] = await agents(2);
    const held = await hold(other, "timeout");
    const signal = AbortSignal.timeout(20);
    const reason = await rejection("it", own.locks.request("timeout", { signal }, nothing));
    expectSame("the reason", reason, signal.reason);
    expectException("the reason", reason, globalThis, "TimeoutError");
    await held.release();
  },

  async "a request that was aborted no longer waits, and its callback never runs"({ agents }) {
    const [own, other] = await agents(2);
    const held = await hold(other, "gone");
    const controller = new AbortController();
    const waits = await wait(own, "gone", { signal: controller.signal });
    expectEqual("what is there", await modesOf(own, "gone"), { held: ["exclusive"], pending: ["exclusive"] });
    controller.abort();
    await outcome(waits.ended);
    expectEqual("what is there", await modesOf(own, "gone"), { held: ["exclusive"], pending: [] });
    await held.release();
    expectTrue("whether it is free", await isFree(other, "gone"));
    await settled(own);
    expectSame("the calls", waits.calls, 0);
  },

  async "an abort lets those through who waited behind the request"({ agents }) {
    const [own, other] = await agents(2);
    const held = await hold(own, "behind", { mode: "shared" });
    const controller = new AbortController();
    const waits = await wait(other, "behind", { signal: controller.signal });
    const shared = await wait(own, "behind", { mode: "shared" });
    expectTrue("whether the shared one waits", await isPending(own, shared.granted));
    controller.abort();
    await shared.granted;
    expectSame("the aborted one's reason", (await rejection("it", waits.ended)).name, "AbortError");
    await Promise.all([held.release(), shared.release()]);
  },

  async "an abort right behind the call rejects, and the callback never runs, though the lock is free"({ agents }) {
    const [own, other] = await agents(2);
    await settled(own);
    await expectAbortedBehindCall(own, other);
  },

  async "an abort right behind an agent's first call rejects, and the callback never runs"({ agents }) {
    const [own, other] = await agents(2);
    await expectAbortedBehindCall(own, other);
  },

  async "an abort when the lock is held does nothing"({ agents }) {
    const [own, other] = await agents(2);
    const controller = new AbortController();
    const held = await hold(own, "held", { signal: controller.signal });
    controller.abort();
    expectTrue("whether the request is pending", await isPending(own, held.ended));
    expectTrue("whether it is free", !(await isFree(other, "held")));
    expectEqual("how it ends", await held.release("value"), { value: "value" });
  },

  async "an abort within the callback does nothing"({ agents }) {
    const [own] = await agents(1);
    const controller = new AbortController();
    const value = await own.locks.request("within", { signal: controller.signal }, async () => {
      controller.abort();
      await settled(own);
      return "value";
    });
    expectSame("the value", value, "value");
  },

  async "an abort behind the end does nothing"({ agents }) {
    const [own] = await agents(1);
    const controller = new AbortController();
    const promise = own.locks.request("behind", { signal: controller.signal }, () => "value");
    await promise;
    controller.abort();
    await settled(own);
    expectSame("the value", await promise, "value");
  },

  async "one signal ends all requests that wait with it, and leaves the lock that is held with it"({ agents }) {
    const [own, other] = await agents(2);
    const controller = new AbortController();
    const { signal } = controller;
    const held = await hold(own, "one", { signal });
    const waits = [await wait(own, "one", { signal }), await wait(other, "one", { signal, mode: "shared" })];
    const reason = { an: "object" };
    controller.abort(reason);
    for (const it of waits) {
      expectSame("the reason", await rejection("it", it.ended), reason);
    }
    await settled(other);
    expectEqual("what is there", await modesOf(own, "one"), { held: ["exclusive"], pending: [] });
    expectEqual("how the held one ends", await held.release("value"), { value: "value" });
  },

  async "the requests of one signal are rejected in the order of the calls"({ agents }) {
    const [own] = await agents(1);
    const controller = new AbortController();
    const { signal } = controller;
    const held = await hold(own, "order");
    const order = [];
    for (const at of [0, 1, 2]) {
      outcome(own.locks.request("order", { signal }, nothing)).then(() => order.push(at));
    }
    await settled(own);
    controller.abort();
    await settled(own);
    expectEqual("the order", order, [0, 1, 2]);
    await held.release();
  },

  async "a signal that wasn't aborted serves the next request"({ agents }) {
    const [own, other] = await agents(2);
    const controller = new AbortController();
    const { signal } = controller;
    expectSame("the first", await own.locks.request("next", { signal }, () => "first"), "first");
    expectSame("the second", await own.locks.request("next", { signal }, () => "second"), "second");
    const held = await hold(other, "next");
    const waits = await wait(own, "next", { signal });
    controller.abort("reason");
    expectSame("the reason", await rejection("it", waits.ended), "reason");
    await held.release();
  },

  async "a signal of one request leaves the others alone"({ agents }) {
    const [own, other] = await agents(2);
    const held = await hold(other, "alone");
    const controllers = [new AbortController(), new AbortController()];
    const waits = [];
    for (const { signal } of controllers) {
      waits.push(await wait(own, "alone", { signal }));
    }
    const plain = await wait(own, "alone");
    controllers[0].abort();
    await outcome(waits[0].ended);
    const pending = (await modesOf(own, "alone")).pending;
    expectEqual("what waits", pending, ["exclusive", "exclusive"]);
    await held.release();
    await waits[1].granted;
    await waits[1].release();
    await plain.granted;
    await plain.release();
  },

  async "an abort that races a grant ends the request or leaves it its lock, and nothing is left"({ agents }) {
    const [own, other] = await agents(2);
    let [aborted, granted] = [0, 0];
    for (let turn = 0; turn < 50; turn += 1) {
      const held = await hold(other, "race");
      const controller = new AbortController();
      let calls = 0;
      const ended = outcome(own.locks.request("race", { signal: controller.signal }, () => (calls += 1)));
      await settled(own);
      const released = held.release();
      await (turn % 2 ? null : settled(own));
      controller.abort();
      const found = await ended;
      expectSame("the calls", calls, "value" in found ? 1 : 0);
      aborted += "value" in found ? 0 : 1;
      granted += "value" in found ? 1 : 0;
      await released;
    }
    expectSame("the requests", aborted + granted, 50);
    expectSame("what the next gives", await other.locks.request("race", () => "next"), "next");
  },

  async "an abort ends the request though a listener stops the signal's event"({ agents }) {
    const [own, other] = await agents(2);
    const held = await hold(other, "stopped");
    const controller = new AbortController();
    controller.signal.addEventListener("abort", (event) => event.stopImmediatePropagation(), { capture: true });
    const waits = await wait(own, "stopped", { signal: controller.signal });
    controller.abort("reason");
    expectEqual("what waits", (await modesOf(own, "stopped")).pending, []);
    await held.release();
    expectEqual("how it ends", await outcome(waits.ended), { reason: "reason" });
    expectSame("the calls", waits.calls, 0);
  },

  async "an event that a page makes up is no abort"({ agents }) {
    const [own, other] = await agents(2);
    const held = await hold(other, "made up");
    const controller = new AbortController();
    const waits = await wait(own, "made up", { signal: controller.signal });
    controller.signal.dispatchEvent(new Event("abort"));
    expectTrue("whether it waits", await isPending(own, waits.ended));
    controller.abort("reason");
    expectEqual("how it ends", await outcome(waits.ended), { reason: "reason" });
    await held.release();
  },

  async "members that a page gives a signal play no part"({ agents }) {
    const [own, other] = await agents(2);
    const held = await hold(other, "members");
    const controller = new AbortController();
    const others = { aborted: true, reason: "another", addEventListener: null, removeEventListener: null };
    for (const [member, value] of Object.entries(others)) {
      Object.defineProperty(controller.signal, member, { value });
    }
    const waits = await wait(own, "members", { signal: controller.signal });
    expectTrue("whether it waits", await isPending(own, waits.ended));
    controller.abort("reason");
    expectEqual("how it ends", await outcome(waits.ended), { reason: "reason" });
    await held.release();
  },

  async "a signal that a later member's getter aborts is aborted"({ agents }) {
    const [own] = await agents(1);
    const controller = new AbortController();
    const options = {
      signal: controller.signal,
      get steal() {
        controller.abort("reason");
        return false;
      },
    };
    const ended = await outcome(own.locks.request("getter", options, nothing));
    expectEqual("how it ends", ended, { reason: "reason" });
  },

  async "a signal's listeners run behind an abort as if there were no request"({ agents }) {
    const [own, other] = await agents(2);
    const held = await hold(other, "listeners");
    const controller = new AbortController();
    const order = [];
    controller.signal.addEventListener("abort", () => order.push("before"));
    const waits = await wait(own, "listeners", { signal: controller.signal });
    outcome(waits.ended).then(() => order.push("rejected"));
    controller.signal.addEventListener("abort", () => order.push("after"));
    controller.abort();
    order.push("aborted");
    await outcome(waits.ended);
    await held.release();
    expectEqual("the order", order, ["before", "after", "aborted", "rejected"]);
  },

  async "a request that was aborted no longer waits when the signal's listeners are called"({ agents }) {
    const [own, other] = await agents(2);
    const held = await hold(other, "heard", { mode: "shared" });
    const controller = new AbortController();
    const waits = await wait(own, "heard", { signal: controller.signal });
    let free;
    controller.signal.addEventListener("abort", () => (free = isFree(own, "heard", "shared")));
    controller.abort("reason");
    expectTrue("whether the lock is there for a listener", await free);
    expectEqual("how it ends", await outcome(waits.ended), { reason: "reason" });
    await held.release();
  },

  async "an abort rejects before what the signal's listeners begin"({ agents }) {
    const [own, other] = await agents(2);
    const held = await hold(other, "rejected first");
    const controller = new AbortController();
    const order = [];
    const waits = await wait(own, "rejected first", { signal: controller.signal });
    controller.signal.addEventListener("abort", () => Promise.resolve().then(() => order.push("begun")));
    waits.ended.catch(() => order.push("rejected"));
    controller.abort();
    await outcome(waits.ended);
    await held.release();
    expectEqual("the order", order, ["rejected", "begun"]);
  },

  async "a hundred requests may be aborted one after the other"({ agents }) {
    const [own, other] = await agents(2);
    const held = await hold(other, "hundred");
    await settled(own);
    for (let turn = 0; turn < 100; turn += 1) {
      const controller = new AbortController();
      const waits = outcome(own.locks.request("hundred", { signal: controller.signal }, nothing));
      controller.abort(turn);
      expectEqual("how it ends", await waits, { reason: turn });
    }
    expectEqual("what is there", await modesOf(own, "hundred"), { held: ["exclusive"], pending: [] });
    await held.release();
  },
};
