/**
 * Random steps of three agents, whose locks are then compared: what comes of the same steps on a browser's locks and on
 * the client's must be the same.
 *
 * After each step all that it led to is awaited, and noted request by request, since agents are told side by side: so
 * nothing is by chance in what is compared. One step is left out, as Chromium does otherwise than the standard says:
 * the abort of an exclusive request that waits for shared locks (`deviations.js`).
 */

import { deferred, settled } from "./holding.js";

const AGENTS = 3;
const NAMES = ["a", "b"];

/** Numbers below 1 that a seed determines (the 32 bit generator of Marsaglia's *Xorshift RNGs*). */
function randomNumbers(seed) {
  let state = seed;
  return () => {
    state ^= state << 13;
    state ^= state >>> 17;
    state ^= state << 5;
    return (state >>> 0) / 2 ** 32;
  };
}

/** A run of steps, and its log. */
class Run {
  #agents;
  #random;
  #log = [];
  #requests = [];

  constructor(agents, seed) {
    this.#agents = agents;
    this.#random = randomNumbers(seed);
  }

  /** Does so many steps, then ends all that is live, and answers what happened. */
  async log(steps) {
    for (let step = 0; step < steps; step += 1) {
      const { kind, act } = this.#choose();
      this.#log.push(`step ${step}: ${kind}`);
      act();
      await this.#settle();
    }
    await this.#endAll();
    return this.#log;
  }

  #pick(list) {
    return list[Math.floor(this.#random() * list.length)];
  }

  /** All that was asked for has been done, and all agents were told. What that was, and what is there, is noted. */
  async #settle() {
    for (let round = 0; round < 2; round += 1) {
      for (const it of this.#agents) {
        await settled(it);
      }
    }
    const told = this.#requests.flatMap((it) => it.told.splice(0));
    this.#log.push(...told, JSON.stringify(await this.#snapshot()));
  }

  /** What is held and pending of each name, without the names of clients, which differ. */
  async #snapshot() {
    const { held, pending } = await this.#agents[0].locks.query();
    const modes = (list, name) => list.filter((it) => it.name === name).map((it) => it.mode);
    return NAMES.map((name) => ({ name, held: modes(held, name), pending: modes(pending, name) }));
  }

  #choose() {
    const held = this.#requests.filter(({ state }) => state === "held");
    const abortable = this.#requests.filter((it) => this.#isAbortable(it));
    const choice = this.#random();
    if (choice < 0.35 && held.length) {
      const request = this.#pick(held);
      return { kind: `release ${request.number}`, act: () => request.body.resolve("released") };
    }
    if (choice < 0.45 && held.length) {
      const request = this.#pick(held);
      return { kind: `fail ${request.number}`, act: () => request.body.reject("failed") };
    }
    if (choice < 0.6 && abortable.length) {
      const request = this.#pick(abortable);
      return { kind: `abort ${request.number}`, act: () => request.controller.abort("aborted") };
    }
    return this.#newRequest();
  }

  #isAbortable({ state, controller, name, mode }) {
    const waitsForShared = this.#requests.some((it) => it.state === "held" && it.name === name && it.mode === "shared");
    return state === "waiting" && controller && (mode === "shared" || !waitsForShared);
  }

  #newRequest() {
    const number = this.#requests.length;
    const [agent, name] = [this.#pick([...this.#agents.keys()]), this.#pick(NAMES)];
    const kind = this.#pick(["exclusive", "shared", "shared", "signal", "shared signal", "steal", "ifAvailable"]);
    const mode = kind.startsWith("shared") ? "shared" : "exclusive";
    const request = { number, agent, name, mode, state: "waiting", body: deferred(), told: [] };
    const options = { mode };
    if (kind === "steal" || kind === "ifAvailable") {
      options[kind] = true;
    } else if (kind.endsWith("signal")) {
      request.controller = new AbortController();
      options.signal = request.controller.signal;
    }
    this.#requests.push(request);
    const act = () => this.#request(request, options);
    return { kind: `${kind} request ${number} of agent ${agent} for ${name}`, act };
  }

  #request(request, options) {
    const note = (what) => request.told.push(`request ${request.number} ${what}`);
    const ended = (how) => {
      request.state = "ended";
      note(how);
    };
    const callback = (lock) => {
      note(`gets ${lock && lock.mode}`);
      request.state = lock ? "held" : "ended";
      return lock ? request.body.promise : "nothing";
    };
    this.#agents[request.agent].locks.request(request.name, options, callback).then(
      (value) => ended(`is fulfilled with ${value}`),
      (reason) => ended(`is rejected with ${reason?.name ?? reason}`),
    );
  }

  async #endAll() {
    while (this.#requests.some(({ state }) => state !== "ended")) {
      for (const it of this.#requests.filter(({ state }) => state === "held")) {
        it.body.resolve("at the end");
      }
      await this.#settle();
    }
  }
}

/** Does random steps by this seed, which is not 0, and answers the log of what happened. */
export async function logOfSteps({ agents }, seed, steps) {
  return new Run(await agents(AGENTS), seed).log(steps);
}
