/** Requests that were made up, and what the rules of Web Locks make of them: a queue for each name, and steals. */

import { manager, row } from "./standin.js";

/** Numbers from 0 up to 1 that look random and come again from the same seed. */
export function numbersFrom(seed) {
  let state = seed >>> 0;
  return () => {
    state = (Math.imul(state, 1664525) + 1013904223) >>> 0;
    return state / 2 ** 32;
  };
}

/** What threads' clocks may differ by, for all that the page knows, in seconds. */
const SKEW = 0.05;

/** The shortest that a lock is held, in seconds: such that two looks see it. */
const LEAST = 1.3;

/** Requests for a name within some seconds. */
export function requestsFor(name, random, { seconds, count }) {
  const made = Array.from({ length: count }, (_, at) => {
    const isTheft = random() < 0.1;
    const mode = !isTheft && random() < 0.4 ? "shared" : "exclusive";
    return { name, client: at + 1, mode, isTheft, asked: seconds * random(), length: LEAST + 3 * random() };
  });
  return made.sort((one, other) => one.asked - other.asked);
}

/**
 * The requests for a name, each with when it was granted, when its lock ended, and how many it passed as a theft. A
 * theft of a lock that has been held for less than it should is left out.
 */
export function grantAll(requests) {
  let [queue, held] = [[], []];
  const asks = [...requests];
  const made = [];
  while (asks.length + held.length > 0) {
    const now = Math.min(asks[0]?.asked ?? Infinity, ...held.map((it) => it.to));
    held = held.filter((it) => it.to > now);
    if (asks[0]?.asked === now) {
      const it = asks.shift();
      if (it.isTheft && held.some(({ granted }) => now - granted < LEAST)) continue;
      made.push(it);
      it.passed = it.isTheft ? queue.filter(({ asked }) => now - asked > SKEW).length : 0;
      if (it.isTheft) {
        held.forEach((stolen) => (stolen.to = now));
        held = [];
      }
      queue = it.isTheft ? [it, ...queue] : [...queue, it];
    }
    while (queue.length > 0 && isFree(queue[0], held)) {
      const it = queue.shift();
      Object.assign(it, { granted: now, to: now + it.length });
      held.push(it);
    }
  }
  return made;
}

function isFree({ mode }, held) {
  return held.length === 0 || (mode === "shared" && held.every((it) => it.mode === "shared"));
}

/** What `/locks` says of these requests at a time. */
export function managerAt(origin, requests, now) {
  const ages = ({ asked, granted }) => ({ asked: now - asked, granted: now - granted });
  const there = requests.filter((it) => it.asked <= now && now < it.to);
  const rowOf = (it, times) => row(it.name, it.client, { mode: it.mode, ...times });
  const held = there.filter((it) => it.granted <= now).sort((one, other) => one.granted - other.granted);
  const pending = there.filter((it) => it.granted > now);
  return manager(origin, {
    held: held.map((it) => rowOf(it, ages(it))),
    pending: pending.map((it) => rowOf(it, { asked: now - it.asked })),
  });
}
