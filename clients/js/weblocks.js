/** Locks with the behaviour of the Web Locks API, shared by all who connect to one weblocks server or worker. */

import { makeManager } from "./src/manager.js";
import { readSettings } from "./src/settings.js";

export { Lock } from "./src/lock.js";
export { LockManager, LostEvent, StalledEvent } from "./src/manager.js";

/**
 * Connects as an agent to a server, or to a worker of the page's origin, and gives its LockManager.
 *
 * @param {import("./weblocks.d.ts").ConnectOptions | import("./weblocks.d.ts").PortOptions} options
 * @returns {Promise<LockManager>} rejected with a TypeError where an option is wrong, a NetworkError where no server
 *   answers, a QuotaExceededError where it has no room, or a SecurityError where it doesn't let this page in, or hasn't
 *   this origin
 */
export async function connect(options) {
  const { manager, session } = makeManager(readSettings(options));
  await session.open();
  return manager;
}
