/** How `request` reads its options (Web IDL, *dictionary types*, *enumeration types*, *boolean*, *interface types*). */

import { expectEqual, expectException, expectSame, expectTrue, expectTypeError, rejection } from "./expecting.js";
import { hold, isFree, modesOf } from "./holding.js";

const nothing = () => {};
const modeOf = (lock) => lock.mode;

/** Options with these members: what is read of them is noted, in its order, and whatever else is done to them. */
function watched(members, read) {
  const others = ["getOwnPropertyDescriptor", "getPrototypeOf", "has", "ownKeys"];
  const noted = others.map((trap) => [trap, () => void read.push(trap)]);
  const get = (target, key) => {
    read.push(key);
    return target[key];
  };
  return new Proxy(members, { ...Object.fromEntries(noted), get });
}

function refusal(agent, options, callback = nothing) {
  return rejection("the request", agent.locks.request("refused", options, callback));
}

export const optionCases = {
  async "undefined and null are the options of a plain request"({ agents }) {
    const [own] = await agents(1);
    for (const it of [undefined, null, {}]) {
      expectSame("the lock's mode", await own.locks.request("plain", it, modeOf), "exclusive");
    }
  },

  async "options that are no object are refused by a TypeError"({ agents }) {
    const [own] = await agents(1);
    for (const it of [5, "text", true, 1n, Symbol("options")]) {
      expectTypeError(`the refusal of ${String(it)}`, await refusal(own, it), own.realm);
    }
  },

  async "a function and an array are objects too, and members may be inherited"({ agents }) {
    const [own] = await agents(1);
    const made = [Object.assign(() => {}, { mode: "shared" }), Object.assign([], { mode: "shared" })];
    for (const it of [...made, Object.create({ mode: "shared" }), new (class { get mode() { return "shared"; } })()]) {
      expectSame("the lock's mode", await own.locks.request("objects", it, modeOf), "shared");
    }
  },

  async "the members are read once each, in the order of their names, and no others"({ agents }) {
    const [own] = await agents(1);
    const read = [];
    const options = watched({ steal: false, mode: "shared", other: 1, ifAvailable: true }, read);
    await own.locks.request("read", options, nothing);
    expectEqual("what was read", read, ["ifAvailable", "mode", "signal", "steal"]);
  },

  async "the options are read within the call"({ agents }) {
    const [own] = await agents(1);
    const options = { mode: "shared" };
    const promise = own.locks.request("within", options, modeOf);
    options.mode = "exclusive";
    expectSame("the lock's mode", await promise, "shared");
  },

  async "a member's value is converted before the next member is read"({ agents }) {
    const [own] = await agents(1);
    const read = [];
    const mode = {
      toString() {
        read.push("conversion");
        return "shared";
      },
    };
    await own.locks.request("turns", watched({ mode }, read), nothing);
    expectEqual("what was done", read, ["ifAvailable", "mode", "conversion", "signal", "steal"]);
  },

  async "a member that is refused ends the reading"({ agents }) {
    const [own] = await agents(1);
    const read = [];
    expectTypeError("the refusal of the mode", await refusal(own, watched({ mode: "no mode" }, read)), own.realm);
    expectTypeError("the refusal of the signal", await refusal(own, watched({ signal: null }, read)), own.realm);
    expectEqual("what was read", read, ["ifAvailable", "mode", "ifAvailable", "mode", "signal"]);
  },

  async "a getter that throws rejects with what it threw"({ agents }) {
    const [own] = await agents(1);
    for (const member of ["ifAvailable", "mode", "signal", "steal"]) {
      const thrown = { member };
      const options = Object.defineProperty({}, member, {
        get() {
          throw thrown;
        },
      });
      expectSame(`the reason of ${member}`, await refusal(own, options), thrown);
    }
  },

  async "the callback is looked at behind the options"({ agents }) {
    const [own] = await agents(1);
    const read = [];
    expectTypeError("the refusal", await refusal(own, watched({}, read), 5), own.realm);
    expectEqual("what was read", read, ["ifAvailable", "mode", "signal", "steal"]);
  },

  async "a mode is converted by ToString"({ agents }) {
    const [own] = await agents(1);
    for (const it of [{ toString: () => "shared" }, ["shared"], new String("shared")]) {
      expectSame("the lock's mode", await own.locks.request("mode", { mode: it }, modeOf), "shared");
    }
    expectSame("the absent mode", await own.locks.request("mode", { mode: undefined }, modeOf), "exclusive");
  },

  async "every other text is refused as a mode by a TypeError"({ agents }) {
    const [own] = await agents(1);
    for (const it of ["", "Shared", "exclusive ", "shared\0", null, 0, false, {}, Symbol("shared")]) {
      expectTypeError(`the refusal of ${String(it)}`, await refusal(own, { mode: it }), own.realm);
    }
  },

  async "a mode whose conversion throws rejects with what was thrown"({ agents }) {
    const [own] = await agents(1);
    const thrown = { what: "thrown" };
    const mode = {
      toString() {
        throw thrown;
      },
    };
    expectSame("the reason", await refusal(own, { mode }), thrown);
  },

  async "ifAvailable is converted by ToBoolean"({ agents }) {
    const [own, other] = await agents(2);
    const held = await hold(other, "boolean");
    for (const it of [1, "false", {}, [], -1, 1n, Symbol("true")]) {
      const lock = await own.locks.request("boolean", { ifAvailable: it }, (given) => given);
      expectSame(`the lock with ${String(it)}`, lock, null);
    }
    await held.release();
  },

  async "steal is converted by ToBoolean"({ agents }) {
    const [own] = await agents(1);
    for (const it of [0, "", null, NaN, undefined, 0n]) {
      const mode = await own.locks.request("boolean", { steal: it, mode: "shared" }, modeOf);
      expectSame(`the mode with ${String(it)}`, mode, "shared");
    }
    const reason = await refusal(own, { steal: "false", mode: "shared" });
    expectException("the refusal", reason, own.realm, "NotSupportedError");
  },

  async "what is no AbortSignal is refused as a signal by a TypeError, and so is null"({ agents }) {
    const [own] = await agents(1);
    const likeness = { aborted: false, reason: undefined, addEventListener: nothing, removeEventListener: nothing };
    const others = [null, {}, "signal", 5, true, new AbortController(), likeness, new EventTarget()];
    for (const it of [...others, Object.create(AbortSignal.prototype)]) {
      expectTypeError("the refusal", await refusal(own, { signal: it }), own.realm);
    }
  },

  async "an undefined signal is absent"({ agents }) {
    const [own] = await agents(1);
    const options = { signal: undefined, ifAvailable: true };
    expectSame("the lock's mode", await own.locks.request("absent", options, modeOf), "exclusive");
  },

  async "a call that is refused for its arguments asks for nothing"({ agents }) {
    const [own, other] = await agents(2);
    let calls = 0;
    const count = () => (calls += 1);
    await refusal(own, { mode: "no mode" }, count);
    await refusal(own, { signal: null }, count);
    await refusal(own, 5, count);
    expectEqual("what is there", await modesOf(own, "refused"), { held: [], pending: [] });
    expectTrue("whether the lock is free", await isFree(other, "refused"));
    expectSame("the calls", calls, 0);
  },
};
