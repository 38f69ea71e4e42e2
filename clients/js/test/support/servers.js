/** Servers for the tests, and LockManagers that are closed after each of them. */

import { after, test } from "node:test";
import { fileURLToPath } from "node:url";
import { startServer } from "../../testing.js";
import { connect } from "../../weblocks.js";
import { Relay } from "./relay.js";
import { startServing } from "./serving.js";
import { WebSocket } from "./sockets.js";

/** The program that is tested: the repository's own, unless another is named. */
export const PROGRAM = process.env.WEBLOCKS_PROGRAM || fileURLToPath(new URL("../../../../weblocks", import.meta.url));

/** Where a theft is to be heard of soon, though nothing is pushed, since a heartbeat's poll brings it. */
const SOON = { poll: 5, heartbeat: 2000 };

/** All tests of a file, in the place of the one by which a server or an agent ends. */
export function allTests() {
  const ends = [];
  after(async () => {
    for (const end of ends) await end();
  });
  return { after: (end) => ends.push(end) };
}

/** A server that pushes, `weblocks daemon` with these options, on a free port unless one is named. */
export async function startPushing(t, { port, words } = {}) {
  const server = await startServer({ program: PROGRAM, port, words });
  t.after(() => server.stop());
  return server;
}

/** A server that polls, `weblocks serve`, on a free port unless one is named. */
export async function startPolled(t, { port } = {}) {
  const server = await startServing(PROGRAM, port);
  t.after(() => server.stop());
  return server;
}

/** One of each, by how it tells what changed. */
export const EACH = { pushed: startPushing, polled: startPolled };

/** A server that pushes, behind a relay that writes down what comes, and may be deaf, slow or wrong. */
export async function startRelayed(t, options) {
  const server = await startPushing(t);
  const relay = await Relay.start(server.url, options);
  t.after(() => relay.stop());
  return relay;
}

/** A new agent of a server; the test closes it. */
export async function connectTo(t, { url }, options = {}) {
  const locks = await connect({ url, origin: "https://a.test", WebSocket, ...options });
  t.after(() => locks.close());
  return locks;
}

/**
 * Tests a sentence with a server that pushes and with one that is polled.
 *
 * @param {string} sentence
 * @param {(agent: (options?: object) => Promise<LockManager>, server: object, t: object) => Promise<void>} check
 *   which connects agents of that server by `agent`
 */
export function testWithEach(sentence, check) {
  for (const [how, start] of Object.entries(EACH)) {
    test(`${sentence} (${how})`, async (t) => {
      const server = await start(t);
      const soon = how === "polled" ? SOON : {};
      await check((options) => connectTo(t, server, { ...soon, ...options }), server, t);
    });
  }
}
