/** What `request` refuses once its arguments are converted, and in which order (Web Locks, *LockManager.request()*). */

import { expectEqual, expectException, expectSame, expectTypeError, rejection } from "./expecting.js";
import { hold, modesOf } from "./holding.js";

const nothing = () => {};

/** What a request of this name is rejected with. */
function refusal(agent, name, options, callback = nothing) {
  return rejection(`the request of ${name}`, agent.locks.request(name, options, callback));
}

async function expectRefusal(agent, error, name, options) {
  expectException("the refusal", await refusal(agent, name, options), agent.realm, error);
}

export const refusalCases = {
  async "a name that begins with a hyphen is refused by NotSupportedError"({ agents }) {
    const [own] = await agents(1);
    for (const it of ["-", "-a", "--", "-\uD800", { toString: () => "-" }, -1]) {
      await expectRefusal(own, "NotSupportedError", it, {});
    }
    const reason = await rejection("it", own.locks.request("-two arguments", nothing));
    expectException("the refusal", reason, own.realm, "NotSupportedError");
  },

  async "a hyphen elsewhere, another dash and the empty name are no matter"({ agents }) {
    const [own] = await agents(1);
    for (const it of ["a-", " -", "\u2010", "\u2212a", "\uFF0D", ""]) {
      expectSame("the lock's name", await own.locks.request(it, (lock) => lock.name), it);
    }
  },

  async "steal and ifAvailable together are refused by NotSupportedError"({ agents }) {
    const [own] = await agents(1);
    await expectRefusal(own, "NotSupportedError", "both", { steal: true, ifAvailable: true });
  },

  async "steal in shared mode is refused by NotSupportedError"({ agents }) {
    const [own] = await agents(1);
    await expectRefusal(own, "NotSupportedError", "shared", { steal: true, mode: "shared" });
  },

  async "a signal with steal, and one with ifAvailable, is refused by NotSupportedError"({ agents }) {
    const [own] = await agents(1);
    const { signal } = new AbortController();
    await expectRefusal(own, "NotSupportedError", "signal", { signal, steal: true });
    await expectRefusal(own, "NotSupportedError", "signal", { signal, ifAvailable: true });
  },

  async "a signal with steal and ifAvailable that are false is granted"({ agents }) {
    const [own] = await agents(1);
    const { signal } = new AbortController();
    const options = { signal, steal: false, ifAvailable: false, mode: "shared" };
    expectSame("the lock's mode", await own.locks.request("signal", options, (lock) => lock.mode), "shared");
  },

  async "what is refused for its arguments is refused by that, whatever else is wrong"({ agents }) {
    const [own] = await agents(1);
    const { signal } = new AbortController();
    const both = { steal: true, ifAvailable: true };
    expectTypeError("a bad callback", await refusal(own, "-a", {}, 5), own.realm);
    expectTypeError("a null signal", await refusal(own, "-a", { signal: null }), own.realm);
    expectTypeError("a bad mode", await refusal(own, "-a", { ...both, mode: "no mode" }), own.realm);
    expectTypeError("no callback", await refusal(own, "a", { ...both, signal }, null), own.realm);
    expectTypeError("an aborted signal", await refusal(own, "a", { signal: AbortSignal.abort() }, 5), own.realm);
  },

  async "a signal that is aborted is looked at last"({ agents }) {
    const [own] = await agents(1);
    const signal = AbortSignal.abort({ what: "reason" });
    await expectRefusal(own, "NotSupportedError", "-a", { signal });
    await expectRefusal(own, "NotSupportedError", "a", { signal, steal: true });
    await expectRefusal(own, "NotSupportedError", "a", { signal, ifAvailable: true });
    await expectRefusal(own, "NotSupportedError", "a", { signal, steal: true, mode: "shared" });
  },

  async "a refused request never calls its callback and leaves nothing"({ agents }) {
    const [own] = await agents(1);
    let calls = 0;
    const count = () => (calls += 1);
    await refusal(own, "-a", {}, count);
    await refusal(own, "a", { steal: true, ifAvailable: true }, count);
    await refusal(own, "a", { signal: AbortSignal.abort() }, count);
    expectEqual("what is there", await modesOf(own, "a"), { held: [], pending: [] });
    expectSame("the calls", calls, 0);
  },

  async "a steal that is refused steals nothing"({ agents }) {
    const [own, other] = await agents(2);
    const held = await hold(other, "kept");
    const { signal } = new AbortController();
    await refusal(own, "kept", { steal: true, ifAvailable: true });
    await refusal(own, "kept", { steal: true, mode: "shared" });
    await refusal(own, "kept", { steal: true, signal });
    expectEqual("what is there", await modesOf(own, "kept"), { held: ["exclusive"], pending: [] });
    expectEqual("how the holder's request ends", await held.release("kept"), { value: "kept" });
  },

  async "the refusals of one agent don't touch what it asks next"({ agents }) {
    const [own] = await agents(1);
    const refused = [refusal(own, "-a", {}), refusal(own, "b", { steal: true, mode: "shared" })];
    expectSame("what the next gives", await own.locks.request("b", () => "next"), "next");
    await Promise.all(refused);
  },

  async "an agent whose document isn't active is refused by InvalidStateError"({ agents }) {
    const [own] = await agents(1);
    await own.deactivate();
    await expectRefusal(own, "InvalidStateError", "inactive", {});
    const reason = await rejection("its query", own.locks.query());
    expectException("the refusal of query", reason, own.realm, "InvalidStateError");
  },

  async "an inactive document is looked at behind the arguments and before all else"({ agents }) {
    const [own] = await agents(1);
    await own.deactivate();
    expectTypeError("the refusal of a callback", await refusal(own, "-a", {}, 5), own.realm);
    expectTypeError("the refusal of a mode", await refusal(own, "a", { mode: "no mode" }), own.realm);
    await expectRefusal(own, "InvalidStateError", "-a", {});
    await expectRefusal(own, "InvalidStateError", "a", { steal: true, ifAvailable: true });
    await expectRefusal(own, "InvalidStateError", "a", { signal: AbortSignal.abort({ what: "reason" }) });
  },

  async "an agent of an opaque origin is refused by SecurityError, behind its arguments and before all else"({
    opaqueAgent,
  }) {
    const opaque = await opaqueAgent();
    expectSame("the refusal of query", await opaque.refusalOf("query"), "SecurityError");
    expectSame("the refusal of request", await opaque.refusalOf("request"), "SecurityError");
    expectSame("the refusal of a hyphen", await opaque.refusalOf("hyphen"), "SecurityError");
    expectSame("the refusal of an aborted signal", await opaque.refusalOf("aborted"), "SecurityError");
    expectSame("the refusal of a mode", await opaque.refusalOf("mode"), "TypeError");
  },
};
