/** Puts a server's LockManager in the place of the page's own, so that pages of several machines share locks. */

import type { ConnectOptions, LockManager, PortOptions } from "./weblocks.js";

/**
 * Makes `navigator.locks` a LockManager of a server, at once. What is asked then waits for the first try to connect.
 * Where that fails, plain requests wait for as many tries as it takes, but those with `ifAvailable` or `steal`, and
 * queries, reject with NetworkError until there is a connection. With `reconnect: false`, or where the server doesn't
 * let the page in, the first failure ends it all. The global classes `LockManager` and `Lock` become the package's.
 */
export function install(options: ConnectOptions | PortOptions): LockManager;
