/** How a callback is called, and what becomes of what it gives (Web Locks, *request a lock*, *Lock class*). */

import { expectEqual, expectSame, expectTrue, outcome, rejection } from "./expecting.js";
import { deferred, hold, isFree, isPending, modesOf, settled } from "./holding.js";

export const callbackCases = {
  async "the callback gets a Lock with the name and the mode"({ agents }) {
    const [own] = await agents(1);
    const read = ({ name, mode }) => ({ name, mode });
    const plain = await own.locks.request("lock", read);
    expectEqual("the plain lock", plain, { name: "lock", mode: "exclusive" });
    const shared = await own.locks.request("lock", { mode: "shared" }, read);
    expectEqual("the shared lock", shared, { name: "lock", mode: "shared" });
  },

  async "the callback gets one argument, and undefined as this"({ agents }) {
    const [own] = await agents(1);
    const found = await own.locks.request("one", function (...given) {
      return { count: given.length, isUndefined: this === undefined };
    });
    expectEqual("what it was called with", found, { count: 1, isUndefined: true });
  },

  async "the callback isn't called within the call, though the lock is free"({ agents }) {
    const [own] = await agents(1);
    const order = [];
    const promise = own.locks.request("free", () => order.push("callback"));
    order.push("returned");
    await Promise.resolve();
    order.push("a microtask later");
    await promise;
    expectEqual("the order", order, ["returned", "a microtask later", "callback"]);
  },

  async "a Lock has name and mode as attributes of its class, and can't be written"({ agents }) {
    const [own] = await agents(1);
    await own.locks.request("attributes", (lock) => {
      expectSame("its class", Object.prototype.toString.call(lock), "[object Lock]");
      expectEqual("its own members", Reflect.ownKeys(lock), []);
      for (const attribute of ["name", "mode"]) {
        const found = Object.getOwnPropertyDescriptor(Object.getPrototypeOf(lock), attribute);
        expectSame(`the getter of ${attribute}`, typeof found.get, "function");
        expectSame(`the setter of ${attribute}`, found.set, undefined);
        expectTrue(`whether ${attribute} is enumerable`, found.enumerable);
      }
      expectTrue("whether a write is refused", !Reflect.set(lock, "name", "another"));
      expectSame("its name", lock.name, "attributes");
    });
  },

  async "a LockManager is of its class, with methods of the class"({ agents }) {
    const [own] = await agents(1);
    expectSame("its class", Object.prototype.toString.call(own.locks), "[object LockManager]");
    for (const method of ["request", "query"]) {
      expectTrue(`whether ${method} is the class's`, !Object.hasOwn(own.locks, method));
    }
  },

  async "a Lock keeps its name and mode behind its end"({ agents }) {
    const [own] = await agents(1);
    const lock = await own.locks.request("kept", { mode: "shared" }, (given) => given);
    expectEqual("what it says", [lock.name, lock.mode], ["kept", "shared"]);
  },

  async "each request gets a Lock of its own"({ agents }) {
    const [own] = await agents(1);
    const one = await own.locks.request("own", (lock) => lock);
    const other = await own.locks.request("own", (lock) => lock);
    expectTrue("whether there are two", one !== other);
  },

  async "the promise is fulfilled with the callback's value"({ agents }) {
    const [own] = await agents(1);
    for (const it of [undefined, null, 0, "text", { an: "object" }, Symbol("value"), []]) {
      expectSame("the value", await own.locks.request("value", () => it), it);
    }
  },

  async "the promise is fulfilled with what the callback's promise is fulfilled with"({ agents }) {
    const [own] = await agents(1);
    const value = { an: "object" };
    const nested = () => Promise.resolve(Promise.resolve(value));
    expectSame("the value", await own.locks.request("nested", nested), value);
    expectSame("the value of an async callback", await own.locks.request("async", async () => value), value);
  },

  async "a thenable that the callback returns is awaited"({ agents }) {
    const [own, other] = await agents(2);
    const called = deferred();
    const ended = own.locks.request("then", () => ({ then: (resolve) => called.resolve(resolve) }));
    const resolve = await called.promise;
    expectTrue("whether it is held", !(await isFree(other, "then")));
    resolve("thenable");
    expectSame("the value", await ended, "thenable");
  },

  async "the promise rejects with what the callback throws"({ agents }) {
    const [own] = await agents(1);
    for (const thrown of [new Error("thrown"), "text", undefined, null, { an: "object" }]) {
      const promise = own.locks.request("throws", () => {
        throw thrown;
      });
      expectSame("the reason", await rejection("it", promise), thrown);
    }
  },

  async "the promise rejects with what the callback's promise rejects with"({ agents }) {
    const [own] = await agents(1);
    for (const reason of [new Error("rejected"), "text", undefined, { an: "object" }]) {
      const promise = own.locks.request("rejects", () => Promise.reject(reason));
      expectSame("the reason", await rejection("it", promise), reason);
    }
  },

  async "the lock is held until what the callback returned settles"({ agents }) {
    const [own, other] = await agents(2);
    const held = await hold(own, "held");
    expectTrue("whether another can have it", !(await isFree(other, "held")));
    expectTrue("whether the request is pending", await isPending(own, held.ended));
    expectEqual("what is there", await modesOf(other, "held"), { held: ["exclusive"], pending: [] });
    expectEqual("how it ends", await held.release("value"), { value: "value" });
    expectTrue("whether another can have it", await isFree(other, "held"));
  },

  async "the lock is free for others when the promise is fulfilled"({ agents }) {
    const [own, other] = await agents(2);
    for (let turn = 0; turn < 30; turn += 1) {
      await own.locks.request("free", () => turn);
      expectTrue(`whether it is free in turn ${turn}`, await isFree(other, "free"));
    }
  },

  async "the lock is free for others when the promise is rejected"({ agents }) {
    const [own, other] = await agents(2);
    for (let turn = 0; turn < 30; turn += 1) {
      await outcome(own.locks.request("free", () => Promise.reject(turn)));
      expectTrue(`whether it is free in turn ${turn}`, await isFree(other, "free"));
    }
  },

  async "a callback that throws gives the lock up"({ agents }) {
    const [own, other] = await agents(2);
    const promise = own.locks.request("thrown", () => {
      throw new Error("thrown");
    });
    await outcome(promise);
    expectTrue("whether it is free", await isFree(other, "thrown"));
  },

  async "each callback is called in a task of its own"({ agents }) {
    const [own, other] = await agents(2);
    const order = [];
    const held = await hold(other, "tasks");
    const callback = (at) => {
      order.push(`callback ${at}`);
      Promise.resolve().then(() => order.push(`microtask of ${at}`));
    };
    const requests = [1, 2, 3].map((at) => own.locks.request("tasks", { mode: "shared" }, () => callback(at)));
    await settled(own);
    await held.release();
    await Promise.all(requests);
    const wanted = [1, 2, 3].flatMap((at) => [`callback ${at}`, `microtask of ${at}`]);
    expectEqual("the order", order, wanted);
  },

  async "each callback is called once"({ agents }) {
    const [own] = await agents(1);
    const calls = [0, 0, 0];
    const requests = calls.map((_, at) => own.locks.request("once", () => (calls[at] += 1)));
    await Promise.all(requests);
    await settled(own);
    expectEqual("the calls", calls, [1, 1, 1]);
  },

  async "ifAvailable gets the lock where it is free"({ agents }) {
    const [own, other] = await agents(2);
    const found = await own.locks.request("free", { ifAvailable: true }, async (lock) => {
      return { name: lock.name, mode: lock.mode, isFree: await isFree(other, "free") };
    });
    expectEqual("what it got", found, { name: "free", mode: "exclusive", isFree: false });
  },

  async "ifAvailable gets null where the lock is held, and the promise settles as the callback does"({ agents }) {
    const [own, other] = await agents(2);
    const held = await hold(other, "held");
    const answers = [];
    const value = await own.locks.request("held", { ifAvailable: true }, (lock) => {
      answers.push(lock);
      return "value";
    });
    const reason = await rejection(
      "the second",
      own.locks.request("held", { ifAvailable: true }, (lock) => {
        answers.push(lock);
        throw "reason";
      }),
    );
    expectEqual("what they got and gave", [...answers, value, reason], [null, null, "value", "reason"]);
    await held.release();
  },

  async "ifAvailable gets null where the own agent holds the lock"({ agents }) {
    const [own] = await agents(1);
    const found = await own.locks.request("own", () => {
      return own.locks.request("own", { ifAvailable: true }, (lock) => lock);
    });
    expectSame("what it got", found, null);
  },

  async "a callback that got null holds and awaits nothing"({ agents }) {
    const [own, other] = await agents(2);
    const held = await hold(other, "null");
    const called = deferred();
    const body = deferred();
    const ended = own.locks.request("null", { ifAvailable: true }, (lock) => {
      called.resolve(lock);
      return body.promise;
    });
    expectSame("what it got", await called.promise, null);
    expectEqual("what is there", await modesOf(own, "null"), { held: ["exclusive"], pending: [] });
    await held.release();
    expectTrue("whether it is free", await isFree(other, "null"));
    expectTrue("whether its promise is pending", await isPending(own, ended));
    body.resolve("later");
    expectSame("what it gives", await ended, "later");
  },

  async "ifAvailable in shared mode gets the lock beside a shared one"({ agents }) {
    const [own, other] = await agents(2);
    const held = await hold(other, "beside", { mode: "shared" });
    expectTrue("whether shared is free", await isFree(own, "beside", "shared"));
    expectTrue("whether exclusive isn't", !(await isFree(own, "beside", "exclusive")));
    await held.release();
  },
};
