/** Puts a server's LockManager in the place of the page's own, so that pages of several machines share locks. */

import { Lock } from "./src/lock.js";
import { LockManager, makeManager } from "./src/manager.js";
import { readSettings } from "./src/settings.js";

/**
 * Makes `navigator.locks` a LockManager of a server, at once. What is asked then waits for the first try to connect.
 * Where that fails, plain requests wait for as many tries as it takes, but those with `ifAvailable` or `steal`, and
 * queries, reject with NetworkError until there is a connection. With `reconnect: false`, or where the server doesn't
 * let the page in, the first failure ends it all. The global classes `LockManager` and `Lock` become the package's.
 *
 * @param {import("./weblocks.d.ts").ConnectOptions | import("./weblocks.d.ts").PortOptions} options as those of
 *   `connect`; `origin` is the page's own if absent
 * @returns {LockManager} the new `navigator.locks`
 * @throws {TypeError} where an option is wrong
 */
export function install(options) {
  const { manager, session } = makeManager(readSettings(options));
  const globals = { Lock, LockManager };
  for (const [name, value] of Object.entries(globals)) {
    Object.defineProperty(globalThis, name, { value, writable: true, configurable: true });
  }
  const navigator = globalThis.navigator ?? addNavigator();
  Object.defineProperty(navigator, "locks", { get: () => manager, enumerable: true, configurable: true });
  session.openLater();
  return manager;
}

/** Node had none before version 21. */
function addNavigator() {
  const navigator = {};
  Object.defineProperty(globalThis, "navigator", { value: navigator, writable: true, configurable: true });
  return navigator;
}
