/** Races, each run a thousand times: whoever wins, nothing is left held or pending. */

import assert from "node:assert/strict";
import { setImmediate as turn } from "node:timers/promises";
import { assertFree, hold, until, watch } from "./support/holding.js";
import { testWithEach } from "./support/servers.js";

const ROUNDS = 1000;

/** The rounds are shared out among so many, each with a bucket of its own, since most of a round is waiting. */
const LANES = 8;

/** Numbers from 0 to below the limit that look random, the same in each run. */
function pseudoRandom(seed) {
  let state = seed;
  return (limit) => {
    state = (Math.imul(state, 1103515245) + 12345) >>> 0;
    return Math.floor((state / 2 ** 32) * limit);
  };
}

/** Does both, in either order, with up to some turns of the event loop between them. */
async function race(random, one, other) {
  const [first, second] = random(2) === 0 ? [one, other] : [other, one];
  first();
  for (let turns = random(12); turns > 0; turns -= 1) await turn();
  second();
}

/**
 * Runs a race's rounds in its lanes. `prepare(agent, random)` gives what does one round and gives the word for who won;
 * where it is given words, each of them must have won.
 */
function testRace(sentence, prepare, words = []) {
  testWithEach(sentence, async (agent) => {
    const wins = new Set();
    const run = async (lane) => {
      const options = { bucket: `lane-${lane}` };
      const ofLane = (more) => agent({ ...options, ...more });
      const round = await prepare(ofLane, pseudoRandom(lane + 1));
      for (let count = 0; count < ROUNDS / LANES; count += 1) wins.add(await round(count));
      const observer = await ofLane();
      await until(async () => (await observer.query()).held.length === 0);
      await assertFree(observer);
    };
    await Promise.all(Array.from({ length: LANES }, (_, lane) => run(lane)));
    for (const word of words) assert.ok(wins.has(word), `never: ${word}`);
  });
}

testRace("an abort against a grant", async (agent, random) => {
  const [a, b] = [await agent(), await agent()];
  return async (count) => {
    const controller = new AbortController();
    const holding = await hold(a, "db");
    let calls = 0;
    const promise = watch(b.request("db", { signal: controller.signal }, () => { calls += 1; }));
    if (random(2) === 0) await b.query();
    await race(random, () => holding.release(), () => controller.abort(count));
    await Promise.all([promise.settled, holding.promise]);
    assert.equal(calls, promise.state === "fulfilled" ? 1 : 0);
    if (promise.state === "rejected") assert.equal(promise.reason, count);
    return promise.state;
  };
}, ["fulfilled", "rejected"]);

testRace("a steal against a release", async (agent, random) => {
  const [a, b] = [await agent(), await agent()];
  return async (count) => {
    const holding = await hold(a, "db");
    const held = watch(holding.promise);
    let stolen;
    await race(random, () => holding.release(count), () => {
      stolen = b.request("db", { steal: true }, (lock) => lock.mode);
    });
    assert.equal(await stolen, "exclusive");
    await held.settled;
    if (held.state === "fulfilled") assert.equal(held.value, count);
    else assert.equal(held.reason.name, "AbortError");
    return held.state;
  };
}, ["fulfilled", "rejected"]);

testRace("close against all", async (agent, random) => {
  const other = await agent();
  return async () => {
    const locks = await agent();
    const controller = new AbortController();
    const asked = [
      locks.request("one", () => new Promise(() => {})),
      locks.request("one", { signal: controller.signal }, () => {}),
      locks.request("two", { mode: "shared" }, () => turn()),
      locks.request("two", { ifAvailable: true }, () => turn()),
      locks.request("two", { steal: true }, () => turn()),
      locks.query(),
    ].map(watch);
    for (let turns = random(20); turns > 0; turns -= 1) await turn();
    if (random(2) === 0) controller.abort("mine");
    const closed = locks.close();
    await Promise.all(asked.map(({ settled }) => settled));
    await closed;
    await assertFree(other);
    assert.equal(asked[0].reason.name, "AbortError");
  };
});

testRace("everything at once", async (agent, random) => {
  const agents = await Promise.all(Array.from({ length: 4 }, () => agent()));
  const settled = [];
  return async (count) => {
    const locks = agents[random(agents.length)];
    const controller = new AbortController();
    const kinds = [
      {}, { mode: "shared" }, { signal: controller.signal }, { mode: "shared", signal: controller.signal },
      { ifAvailable: true }, { steal: true },
    ];
    const promise = locks.request(`name ${random(3)}`, kinds[random(kinds.length)], async () => {
      for (let turns = random(4); turns > 0; turns -= 1) await turn();
    });
    settled.push(watch(promise).settled);
    if (random(3) === 0) setImmediate(() => controller.abort("mine"));
    if (random(4) === 0) await turn();
    if (count + 1 === ROUNDS / LANES) await Promise.all(settled);
  };
});
