/** Runs the cases in an environment, which gives them their agents. */

import { cases } from "./cases.js";

/** What a case may take at most. A case that is stuck ends then, and so the run ends. */
export const CASE_MILLISECONDS = 15_000;

/** What an agent's last release may take until another agent sees it. */
const SETTLING = 1000;

/** Nothing of what the case asked for is left. */
async function expectNothingLeft(environment) {
  const [observer] = await environment.agents(1);
  const until = performance.now() + SETTLING;
  for (let left = true; left; ) {
    const { held, pending } = await observer.locks.query();
    left = held.length + pending.length > 0;
    if (left && performance.now() > until) {
      throw new Error(`there is left ${JSON.stringify({ held, pending })}`);
    }
  }
}

function timeLimit(milliseconds) {
  let timer;
  const promise = new Promise((_, reject) => {
    timer = setTimeout(() => reject(new Error(`it took more than ${milliseconds} ms`)), milliseconds);
  });
  return { promise, clear: () => clearTimeout(timer) };
}

async function runWhole(run, environment) {
  await run(environment);
  await expectNothingLeft(environment);
}

/** Runs one case in an environment of its own, and answers `{ name, fault, milliseconds }`, where no fault is null. */
async function runCase({ name, run }, makeEnvironment, milliseconds) {
  const begun = performance.now();
  const limit = timeLimit(milliseconds);
  let fault = null;
  let environment;
  try {
    environment = await makeEnvironment();
    await Promise.race([runWhole(run, environment), limit.promise]);
  } catch (why) {
    fault = why instanceof Error ? why.message : String(why);
  }
  limit.clear();
  await environment?.end();
  return { name, fault, milliseconds: Math.round(performance.now() - begun) };
}

/**
 * Runs the cases one after the other.
 *
 * @param makeEnvironment what makes an environment for one case: `agents`, `opaqueAgent` and `end`, which ends all.
 * @param milliseconds what a case may take at most.
 */
export async function runCases(makeEnvironment, milliseconds = CASE_MILLISECONDS) {
  const results = [];
  for (const it of cases) {
    results.push(await runCase(it, makeEnvironment, milliseconds));
  }
  return results;
}
