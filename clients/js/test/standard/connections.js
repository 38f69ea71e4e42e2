/** Agents of the package, in a page or in Node: each is a connection of its own to one server. */

import { refusalOf } from "./opaque_calls.js";

const { DOMException, Promise, TypeError } = globalThis;

/** Each environment has an origin of its own, so that no case sees what another left. */
let count = 0;

/**
 * An environment whose agents are connections.
 *
 * @param connect the package's
 * @param options what all of them are given; `url` is the server's
 */
export function connectionEnvironment(connect, options) {
  count += 1;
  const origin = `https://case-${count}.test`;
  const made = [];

  async function managerOf(its) {
    made.push(await connect({ ...options, ...its }));
    return made.at(-1);
  }

  async function agent() {
    const locks = await managerOf({ origin });
    const realm = { DOMException, Promise, TypeError };
    return { locks, realm, end: () => locks.close(), deactivate: () => locks.setActive(false) };
  }

  async function opaqueAgent() {
    const locks = await managerOf({ origin: "data:," });
    return { refusalOf: (call) => refusalOf(locks, call) };
  }

  return {
    agents: (wanted) => Promise.all(Array.from({ length: wanted }, agent)),
    opaqueAgent,
    end: () => Promise.all(made.map((it) => it.close())),
  };
}
