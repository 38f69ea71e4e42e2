/**
 * How the cases hold, await and look at locks. An agent is `{ locks, realm, end(), deactivate() }`: a LockManager,
 * the classes of its realm, and how it is ended or made to be of a document that isn't active.
 */

import { outcome } from "./expecting.js";

/** A promise, and what settles it. */
export function deferred() {
  const made = {};
  made.promise = new Promise((resolve, reject) => Object.assign(made, { resolve, reject }));
  return made;
}

/** A turn of the event loop: what was a task when it was called has run then. */
export function turn() {
  return new Promise((resolve) => setTimeout(resolve, 0));
}

/**
 * A request whose lock is held until `release` or `fail` is called.
 *
 * - `granted`: a promise of the `Lock`. It rejects where the request ends without one.
 * - `ended`: the promise that `request` returned. It counts as observed.
 */
export class Holder {
  #agent;
  #body = deferred();

  constructor(agent, name, options = {}) {
    const taken = deferred();
    this.#agent = agent;
    this.calls = 0;
    this.ended = agent.locks.request(name, options, (lock) => {
      this.calls += 1;
      taken.resolve(lock);
      return this.#body.promise;
    });
    this.granted = Promise.race([taken.promise, this.ended.then(refuse)]);
    outcome(this.granted);
  }

  /** Ends the callback with this value, and waits until the request has ended and every agent can tell. */
  async release(value) {
    this.#body.resolve(value);
    return this.#end();
  }

  /** Ends the callback by this rejection, and waits as `release` does. */
  async fail(reason) {
    this.#body.reject(reason);
    return this.#end();
  }

  async #end() {
    const ended = await outcome(this.ended);
    await settled(this.#agent);
    return ended;
  }
}

function refuse() {
  throw new Error("the request ended before its callback was called");
}

/** A lock that is held when the promise is fulfilled. */
export async function hold(agent, name, options) {
  const holder = new Holder(agent, name, options);
  await holder.granted;
  return holder;
}

/** Locks that are held when the promise is fulfilled, asked for one after the other: each `[agent, name, options]`. */
export async function holdAll(...requests) {
  const holders = [];
  for (const it of requests) {
    holders.push(await hold(...it));
  }
  return holders;
}

/** A request that waits when the promise is fulfilled: what the agent asked before is with its manager then. */
export async function wait(agent, name, options) {
  const holder = new Holder(agent, name, options);
  await settled(agent);
  return holder;
}

/** All that the agent asked so far has reached its manager, and what came of it has reached the agent. */
export async function settled(agent) {
  await agent.locks.query();
  await turn();
}

/** Whether a promise is still pending, once what the agent asked so far is done. */
export async function isPending(agent, promise) {
  let pending = true;
  outcome(promise).then(() => {
    pending = false;
  });
  await settled(agent);
  return pending;
}

/** Whether the agent could have this lock at once. */
export function isFree(agent, name, mode = "exclusive") {
  return agent.locks.request(name, { mode, ifAvailable: true }, (lock) => lock !== null);
}

/** What is held and pending of one name, as `["exclusive", "shared"]` each. */
export async function modesOf(agent, name) {
  const { held, pending } = await agent.locks.query();
  const modes = (list) => list.filter((it) => it.name === name).map((it) => it.mode);
  return { held: modes(held), pending: modes(pending) };
}
