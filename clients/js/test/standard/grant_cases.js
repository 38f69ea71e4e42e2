/** In which order locks are granted, and which of them together (Web Locks, *process the lock request queue*). */

import { expectEqual, expectSame, expectTrue } from "./expecting.js";
import { Holder, hold, holdAll, isFree, isPending, modesOf, settled, wait } from "./holding.js";

const SHARED = { mode: "shared" };

export const grantCases = {
  async "an exclusive lock waits for an exclusive one"({ agents }) {
    const [own, other] = await agents(2);
    const first = await hold(own, "waits");
    const second = await wait(other, "waits");
    expectTrue("whether it waits", await isPending(other, second.granted));
    expectEqual("what is there", await modesOf(own, "waits"), { held: ["exclusive"], pending: ["exclusive"] });
    await first.release();
    expectSame("the second's name", (await second.granted).name, "waits");
    await second.release();
  },

  async "requests of one agent are granted in the order of the calls"({ agents }) {
    const [own] = await agents(1);
    const order = [];
    const requests = [0, 1, 2, 3, 4].map((at) => own.locks.request("order", () => order.push(at)));
    await Promise.all(requests);
    expectEqual("the order", order, [0, 1, 2, 3, 4]);
  },

  async "calls with and without options keep their order"({ agents }) {
    const [own] = await agents(1);
    const { signal } = new AbortController();
    const order = [];
    const calls = [{}, { signal }, SHARED, { signal, mode: "shared" }, null, { signal }];
    const requests = calls.map((options, at) => own.locks.request("kinds", options, () => void order.push(at)));
    await Promise.all(requests);
    expectEqual("the order", order, [0, 1, 2, 3, 4, 5]);
  },

  async "requests of several agents are granted in the order in which they came"({ agents }) {
    const [own, ...others] = await agents(4);
    const order = [];
    const held = await hold(own, "agents");
    const ended = [];
    for (const at of [2, 0, 1, 2, 0]) {
      ended.push(others[at].locks.request("agents", () => void order.push(at)));
      await settled(others[at]);
    }
    await held.release();
    await Promise.all(ended);
    expectEqual("the order", order, [2, 0, 1, 2, 0]);
  },

  async "shared locks are held together"({ agents }) {
    const [own, other] = await agents(2);
    const held = await holdAll([own, "shared", SHARED], [other, "shared", SHARED], [own, "shared", SHARED]);
    const found = await modesOf(own, "shared");
    expectEqual("what is there", found, { held: ["shared", "shared", "shared"], pending: [] });
    await Promise.all(held.map((it) => it.release()));
  },

  async "an exclusive lock waits for all shared ones"({ agents }) {
    const [own, other] = await agents(2);
    const shared = await holdAll([own, "all", SHARED], [other, "all", SHARED]);
    const last = await wait(other, "all");
    await shared[0].release();
    expectTrue("whether it waits", await isPending(other, last.granted));
    await shared[1].release();
    expectSame("its mode", (await last.granted).mode, "exclusive");
    await last.release();
  },

  async "a shared lock waits for an exclusive one"({ agents }) {
    const [own, other] = await agents(2);
    const first = await hold(own, "modes");
    const second = await wait(other, "modes", SHARED);
    expectTrue("whether it waits", await isPending(other, second.granted));
    await first.release();
    expectSame("its mode", (await second.granted).mode, "shared");
    await second.release();
  },

  async "a shared request doesn't overtake an exclusive one that waits"({ agents }) {
    const [own, other] = await agents(2);
    const first = await hold(own, "overtake", SHARED);
    const second = await wait(other, "overtake");
    const third = await wait(own, "overtake", SHARED);
    const found = await modesOf(own, "overtake");
    expectEqual("what is there", found, { held: ["shared"], pending: ["exclusive", "shared"] });
    await first.release();
    await second.granted;
    expectTrue("whether the third waits", await isPending(own, third.granted));
    await second.release();
    await third.granted;
    await third.release();
  },

  async "ifAvailable doesn't overtake a request that waits"({ agents }) {
    const [own, other] = await agents(2);
    const first = await hold(own, "available", SHARED);
    const second = await wait(other, "available");
    expectTrue("whether shared isn't free", !(await isFree(own, "available", "shared")));
    await first.release();
    await second.granted;
    await second.release();
    expectTrue("whether shared is free", await isFree(own, "available", "shared"));
  },

  async "shared requests behind an exclusive lock are granted together"({ agents }) {
    const [own, other] = await agents(2);
    const first = await hold(own, "together");
    const shared = [await wait(own, "together", SHARED), await wait(other, "together", SHARED)];
    const last = await wait(own, "together");
    await first.release();
    await Promise.all(shared.map((it) => it.granted));
    const found = await modesOf(own, "together");
    expectEqual("what is there", found, { held: ["shared", "shared"], pending: ["exclusive"] });
    await Promise.all(shared.map((it) => it.release()));
    await last.granted;
    await last.release();
  },

  async "shared requests are granted up to the first exclusive one"({ agents }) {
    const [own] = await agents(1);
    const modes = ["exclusive", "shared", "shared", "exclusive", "shared"];
    const holders = modes.map((mode) => new Holder(own, "prefix", { mode }));
    const seen = [];
    for (const it of [[0], [1, 2], [3], [4]]) {
      await Promise.all(it.map((at) => holders[at].granted));
      seen.push(await modesOf(own, "prefix"));
      await Promise.all(it.map((at) => holders[at].release()));
    }
    const wanted = [["exclusive"], ["shared", "shared"], ["exclusive"], ["shared"]];
    expectEqual("what was held", seen.map((it) => it.held), wanted);
    expectEqual("what waited", seen.map((it) => it.pending.length), [4, 2, 1, 0]);
  },

  async "names have nothing to do with each other"({ agents }) {
    const [own, other] = await agents(2);
    const held = await holdAll([own, "one"], [other, "another"], [own, "third"]);
    const waits = await wait(other, "one");
    expectTrue("whether a fourth is free", await isFree(other, "fourth"));
    await held[1].release();
    expectTrue("whether it waits", await isPending(other, waits.granted));
    await Promise.all([held[0].release(), held[2].release()]);
    await waits.granted;
    await waits.release();
  },

  async "an agent that holds a lock waits for it like any other"({ agents }) {
    const [own] = await agents(1);
    const first = await hold(own, "again");
    const second = await wait(own, "again");
    expectTrue("whether it waits", await isPending(own, second.granted));
    await first.release();
    await second.granted;
    await second.release();
  },

  async "a callback may ask for further locks"({ agents }) {
    const [own] = await agents(1);
    const found = await own.locks.request("outer", async (outer) => {
      const inner = await own.locks.request("inner", (lock) => lock.name);
      const beside = await own.locks.request("beside", SHARED, (lock) => lock.mode);
      return [outer.name, inner, beside];
    });
    expectEqual("what they gave", found, ["outer", "inner", "shared"]);
  },

  async "who asks again behind the release comes behind those who wait"({ agents }) {
    const [own, other] = await agents(2);
    const order = [];
    const first = await hold(own, "behind");
    const waits = other.locks.request("behind", () => void order.push("other"));
    await settled(other);
    await first.release();
    await own.locks.request("behind", () => void order.push("own again"));
    await waits;
    expectEqual("the order", order, ["other", "own again"]);
  },

  async "a hundred callbacks under one exclusive lock never overlap"({ agents }) {
    const all = await agents(2);
    let [inside, most, count] = [0, 0, 0];
    const callback = async () => {
      inside += 1;
      most = Math.max(most, inside);
      const was = count;
      await Promise.resolve();
      count = was + 1;
      inside -= 1;
    };
    await Promise.all(Array.from({ length: 100 }, (_, at) => all[at % 2].locks.request("count", callback)));
    expectEqual("how many were inside, and the count", [most, count], [1, 100]);
  },

  async "the locks of an agent that ends are free for others"({ agents }) {
    const [own, other] = await agents(2);
    await hold(own, "ends");
    await hold(own, "ends too", SHARED);
    const waits = await wait(other, "ends");
    await own.end();
    await waits.granted;
    await waits.release();
    expectTrue("whether the other is free", await isFree(other, "ends too"));
  },

  async "the requests of an agent that ends no longer wait"({ agents }) {
    const [own, other, ending] = await agents(3);
    const first = await hold(own, "queue", SHARED);
    const gone = await wait(ending, "queue");
    const third = await wait(other, "queue", SHARED);
    expectTrue("whether the third waits", await isPending(other, third.granted));
    await ending.end();
    await third.granted;
    expectEqual("what is there", await modesOf(own, "queue"), { held: ["shared", "shared"], pending: [] });
    expectSame("the calls of the one that is gone", gone.calls, 0);
    await Promise.all([first.release(), third.release()]);
  },
};
