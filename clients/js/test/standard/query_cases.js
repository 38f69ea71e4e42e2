/** What `query` shows (Web Locks, *snapshot the lock state*; Web IDL, *dictionary types*). */

import { expectEqual, expectSame, expectTrue, outcome } from "./expecting.js";
import { Holder, hold, holdAll, modesOf, settled, wait } from "./holding.js";

const SHARED = { mode: "shared" };

/** The names of what is held and pending, of the names that the case uses. */
async function namesOf(agent, names) {
  const { held, pending } = await agent.locks.query();
  const found = (list) => list.map((it) => it.name).filter((it) => names.includes(it));
  return { held: found(held), pending: found(pending) };
}

async function clientOf(agent, name) {
  const { held, pending } = await agent.locks.query();
  return [...held, ...pending].find((it) => it.name === name).clientId;
}

export const queryCases = {
  async "query gives held and pending, which are empty where nothing is"({ agents }) {
    const [own] = await agents(1);
    const found = await own.locks.query();
    expectEqual("its members", Object.keys(found), ["held", "pending"]);
    expectEqual("what it shows", found, { held: [], pending: [] });
    expectTrue("whether these are arrays", Array.isArray(found.held) && Array.isArray(found.pending));
  },

  async "each item is an object with clientId, mode and name"({ agents }) {
    const [own, other] = await agents(2);
    const held = await hold(own, "items", SHARED);
    const waits = await wait(other, "items");
    const found = await own.locks.query();
    const [one, second] = [found.held[0], found.pending[0]];
    for (const it of [one, second]) {
      expectEqual("its members", Object.keys(it), ["clientId", "mode", "name"]);
      expectTrue("whether clientId is a text", typeof it.clientId === "string" && it.clientId !== "");
      const member = Object.getOwnPropertyDescriptor(it, "mode");
      expectTrue("whether it is plain data", member.writable && member.enumerable && member.configurable);
    }
    expectEqual("the first", [one.mode, one.name], ["shared", "items"]);
    expectEqual("the second", [second.mode, second.name], ["exclusive", "items"]);
    await held.release();
    await waits.granted;
    await waits.release();
  },

  async "query returns a promise of a new object each time"({ agents }) {
    const [own] = await agents(1);
    const promise = own.locks.query();
    expectTrue("whether it is a promise", promise instanceof own.realm.Promise);
    const [one, other] = [await promise, await own.locks.query()];
    expectTrue("whether there are two", one !== other && one.held !== other.held);
  },

  async "query ignores its arguments"({ agents }) {
    const [own] = await agents(1);
    const found = await own.locks.query("a", { mode: "shared" }, 5);
    expectEqual("what it shows", found, { held: [], pending: [] });
  },

  async "query shows what its own agent asked before"({ agents }) {
    const [own] = await agents(1);
    const holders = [new Holder(own, "before"), new Holder(own, "before", SHARED)];
    expectEqual("what is there", await modesOf(own, "before"), { held: ["exclusive"], pending: ["shared"] });
    await holders[0].release();
    await holders[1].granted;
    await holders[1].release();
  },

  async "a snapshot doesn't change later"({ agents }) {
    const [own] = await agents(1);
    const held = await hold(own, "snapshot");
    const found = await own.locks.query();
    const text = JSON.stringify(found);
    await held.release();
    await settled(own);
    expectSame("what it shows", JSON.stringify(found), text);
  },

  async "all agents of an origin see the same"({ agents }) {
    const [own, other] = await agents(2);
    const held = await holdAll([own, "same", SHARED], [other, "same", SHARED]);
    const waits = await wait(own, "same");
    const [one, second] = [await own.locks.query(), await other.locks.query()];
    expectEqual("what they see", one, second);
    expectEqual("how much", [one.held.length, one.pending.length], [2, 1]);
    await Promise.all(held.map((it) => it.release()));
    await waits.granted;
    await waits.release();
  },

  async "an agent has one clientId, and another agent another"({ agents }) {
    const [own, other] = await agents(2);
    const held = await holdAll([own, "a"], [own, "b"], [other, "c"]);
    const waits = await wait(own, "c");
    const clients = [await clientOf(own, "a"), await clientOf(other, "b"), await clientOf(own, "c")];
    expectSame("the own client", clients[1], clients[0]);
    expectTrue("whether the other's differs", clients[2] !== clients[0]);
    const { pending } = await other.locks.query();
    expectSame("who waits", pending[0].clientId, clients[0]);
    await Promise.all(held.map((it) => it.release()));
    await waits.granted;
    await waits.release();
  },

  async "what is pending of a name is in the order of its queue"({ agents }) {
    const [own, other] = await agents(2);
    const held = await hold(own, "queue");
    const waits = [await wait(other, "queue", SHARED), await wait(own, "queue"), await wait(other, "queue", SHARED)];
    const { pending } = await own.locks.query();
    expectEqual("the modes", pending.map((it) => it.mode), ["shared", "exclusive", "shared"]);
    expectTrue("whether the first and last are one client", pending[0].clientId === pending[2].clientId);
    expectTrue("whether the second is another", pending[0].clientId !== pending[1].clientId);
    await held.release();
    for (const it of waits) {
      await it.granted;
      await it.release();
    }
  },

  async "what is held of a name is in the order of the grants"({ agents }) {
    const [own, other] = await agents(2);
    const held = await holdAll([other, "held", SHARED], [own, "held", SHARED], [other, "held", SHARED]);
    const { held: found } = await own.locks.query();
    expectTrue("whether the first and last are one client", found[0].clientId === found[2].clientId);
    expectTrue("whether the second is another", found[0].clientId !== found[1].clientId);
    await Promise.all(held.map((it) => it.release()));
  },

  async "what is held of several names is in the order of the grants"({ agents }) {
    const [own] = await agents(1);
    const names = ["b", "c", "a"];
    const held = await holdAll([own, "b", SHARED], [own, "c"], [own, "a"], [own, "b", SHARED]);
    expectEqual("the names", (await namesOf(own, names)).held, ["b", "c", "a", "b"]);
    await Promise.all(held.map((it) => it.release()));
  },

  async "what is pending of several names is in the order in which the names were first asked for"({ agents }) {
    const [own] = await agents(1);
    const names = ["e", "d"];
    const held = await holdAll([own, "e"], [own, "d"]);
    const waits = [await wait(own, "d"), await wait(own, "e")];
    expectEqual("the names", (await namesOf(own, names)).pending, ["e", "d"]);
    await Promise.all(held.map((it) => it.release()));
    for (const it of waits) {
      await it.granted;
      await it.release();
    }
  },

  async "a thief is shown in the place of the one it robbed"({ agents }) {
    const [own, other] = await agents(2);
    const held = await hold(own, "thief", SHARED);
    const thief = await hold(other, "thief", { steal: true });
    await outcome(held.ended);
    expectEqual("what is there", await modesOf(own, "thief"), { held: ["exclusive"], pending: [] });
    await thief.release();
  },

  async "what got null, was refused or was aborted isn't shown"({ agents }) {
    const [own, other] = await agents(2);
    const held = await hold(other, "shown");
    const controller = new AbortController();
    const waits = await wait(own, "shown", { signal: controller.signal });
    controller.abort();
    await outcome(waits.ended);
    await own.locks.request("shown", { ifAvailable: true }, () => {});
    await outcome(own.locks.request("shown", { steal: true, mode: "shared" }, () => {}));
    expectEqual("what is there", await modesOf(own, "shown"), { held: ["exclusive"], pending: [] });
    await held.release();
    expectEqual("what is left", await modesOf(own, "shown"), { held: [], pending: [] });
  },
};
