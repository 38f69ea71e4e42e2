/** How `request` takes its arguments (Web IDL, *overload resolution*, *DOMString*, *callback function types*). */

import { expectEqual, expectSame, expectTrue, expectTypeError, rejection } from "./expecting.js";
import { isFree } from "./holding.js";

const nothing = () => {};

/** What a call is rejected with, where it mustn't throw. */
function refusal(agent, ...given) {
  return rejection(`request of ${given.length} arguments`, agent.locks.request(...given));
}

export const argumentCases = {
  async "fewer than two arguments are refused by a TypeError"({ agents }) {
    const [own] = await agents(1);
    expectTypeError("the refusal of none", await refusal(own), own.realm);
    expectTypeError("the refusal of a name alone", await refusal(own, "alone"), own.realm);
  },

  async "a refused call returns a rejected promise and never throws"({ agents }) {
    const [own] = await agents(1);
    const calls = [[], ["a"], [Symbol("a"), nothing], ["a", 5], ["a", 5, nothing], ["-a", nothing]];
    const promises = calls.map((given) => own.locks.request(...given));
    for (const it of promises) {
      expectTrue("whether it is a promise", it instanceof own.realm.Promise);
    }
    await Promise.all(promises.map((it) => rejection("it", it)));
  },

  async "each call returns a promise of its own"({ agents }) {
    const [own] = await agents(1);
    const promises = [own.locks.request("own", nothing), own.locks.request("own", nothing)];
    expectTrue("whether it is a promise", promises[0] instanceof own.realm.Promise);
    expectTrue("whether there are two", promises[0] !== promises[1]);
    await Promise.all(promises);
  },

  async "the name is converted by ToString"({ agents }) {
    const [own] = await agents(1);
    const object = { toString: () => "said", valueOf: () => "not said" };
    const primitive = { [Symbol.toPrimitive]: (hint) => `as a ${hint}`, toString: () => "not said" };
    const primitives = [[5, "5"], [null, "null"], [undefined, "undefined"], [true, "true"]];
    for (const [given, name] of [...primitives, [["a", "b"], "a,b"], [object, "said"], [primitive, "as a string"]]) {
      expectSame("the lock's name", await own.locks.request(given, (lock) => lock.name), name);
    }
  },

  async "a name whose conversion throws rejects with what was thrown"({ agents }) {
    const [own] = await agents(1);
    const thrown = { what: "thrown" };
    const name = {
      toString() {
        throw thrown;
      },
    };
    expectSame("the reason", await refusal(own, name, nothing), thrown);
  },

  async "a symbol is refused as a name by a TypeError"({ agents }) {
    const [own] = await agents(1);
    expectTypeError("the refusal", await refusal(own, Symbol("name"), nothing), own.realm);
  },

  async "the name is converted before options and callback are looked at"({ agents }) {
    const [own] = await agents(1);
    const thrown = { what: "thrown" };
    const name = {
      toString() {
        throw thrown;
      },
    };
    const options = {
      get mode() {
        throw new Error("the options were read");
      },
    };
    expectSame("the reason before a bad callback", await refusal(own, name, 5), thrown);
    expectSame("the reason before bad options", await refusal(own, name, options, 5), thrown);
    expectSame("the reason before options that are no object", await refusal(own, name, 5, nothing), thrown);
  },

  async "the name is converted once"({ agents }) {
    const [own] = await agents(1);
    let count = 0;
    const name = { toString: () => `name${(count += 1)}` };
    expectSame("the lock's name", await own.locks.request(name, {}, (lock) => lock.name), "name1");
    expectSame("the number of conversions", count, 1);
  },

  async "of two arguments the second is the callback"({ agents }) {
    const [own] = await agents(1);
    expectSame("what it gives", await own.locks.request("two", () => "called"), "called");
    for (const it of [{}, { mode: "shared" }, undefined, null, 5, "text"]) {
      expectTypeError(`the refusal of ${String(it)}`, await refusal(own, "two", it), own.realm);
    }
  },

  async "of three arguments the third is the callback, and an undefined one is refused"({ agents }) {
    const [own] = await agents(1);
    for (const it of [undefined, null, 5, {}]) {
      expectTypeError(`the refusal of ${String(it)}`, await refusal(own, "three", nothing, it), own.realm);
    }
  },

  async "an object with handleEvent is no callback"({ agents }) {
    const [own] = await agents(1);
    expectTypeError("the refusal", await refusal(own, "event", { handleEvent: nothing }), own.realm);
  },

  async "arguments behind the third are ignored"({ agents }) {
    const [own] = await agents(1);
    const given = ["four", { mode: "shared" }, (lock) => lock.mode, { mode: "exclusive" }, () => "another"];
    expectSame("what it gives", await own.locks.request(...given), "shared");
  },

  async "whatever can be called is a callback"({ agents }) {
    const [own] = await agents(1);
    const callbacks = [
      (lock) => lock.name,
      async (lock) => lock.name,
      function (lock) {
        return lock.name;
      }.bind(undefined),
      new Proxy((lock) => lock.name, {}),
    ];
    for (const it of callbacks) {
      expectSame("what it gives", await own.locks.request("called", it), "called");
    }
  },

  async "a class can't be called, and the request rejects with the TypeError of the call"({ agents }) {
    const [own, other] = await agents(2);
    const reason = await refusal(own, "class", class {});
    expectTrue(`whether it is a TypeError: ${reason}`, reason?.name === "TypeError");
    expectTrue("whether the lock is free", await isFree(other, "class"));
  },

  async "on an object that is no LockManager both methods reject with a TypeError, whatever the arguments"({ agents }) {
    const [own] = await agents(1);
    const { request, query } = own.locks;
    const name = {
      toString() {
        throw new Error("the name was converted");
      },
    };
    for (const it of [undefined, {}, Object.create(own.locks)]) {
      expectTypeError("the refusal of request", await rejection("it", request.call(it, name, nothing)), own.realm);
      expectTypeError("the refusal of query", await rejection("it", query.call(it)), own.realm);
    }
  },

  async "request has the length 2 and query 0, and both have their names"({ agents }) {
    const [own] = await agents(1);
    const { request, query } = own.locks;
    const found = [request.length, request.name, query.length, query.name];
    expectEqual("lengths and names", found, [2, "request", 0, "query"]);
  },
};
