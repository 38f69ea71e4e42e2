/**
 * What the standard says of locks, as cases that run in a page and in Node, on a browser's own LockManagers and on
 * those of the client.
 *
 * Each case is a function whose name is the sentence that it shows. It is given what makes agents of one origin:
 *
 * - `agents(count)`: a promise of so many new agents `{ locks, realm, end(), deactivate() }`. `locks` is the agent's
 *   LockManager, and `realm` has the classes `DOMException`, `Promise` and `TypeError` of which its objects are;
 *   `end()` ends the agent, as when its page is left, and `deactivate()` makes its document one that isn't fully
 *   active.
 * - `opaqueAgent()`: a promise of an agent of an opaque origin, `{ refusalOf(call) }`. That is a promise of the name
 *   of what the call is rejected with; the calls are those of `CALLS`.
 *
 * A case throws where the sentence doesn't hold. It leaves nothing held and nothing pending.
 */

import { argumentCases } from "./argument_cases.js";
import { callbackCases } from "./callback_cases.js";
import { grantCases } from "./grant_cases.js";
import { nameCases } from "./name_cases.js";
import { optionCases } from "./option_cases.js";
import { queryCases } from "./query_cases.js";
import { refusalCases } from "./refusal_cases.js";
import { signalCases } from "./signal_cases.js";
import { stealCases } from "./steal_cases.js";

/** The cases by the subject that their names speak of. */
export const subjects = {
  arguments: argumentCases,
  options: optionCases,
  refusals: refusalCases,
  callbacks: callbackCases,
  grants: grantCases,
  steals: stealCases,
  signals: signalCases,
  queries: queryCases,
  names: nameCases,
};

/** All cases in order, each `{ name, run }`, its name with its subject before it. */
export const cases = Object.entries(subjects).flatMap(([subject, its]) => {
  return Object.entries(its).map(([sentence, run]) => ({ name: `${subject}: ${sentence}`, run }));
});
