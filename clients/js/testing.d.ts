/** A weblocks server for the tests of a file, by `node:test`. */

import type { ConnectOptions, LockManager } from "./weblocks.js";

export interface ServerOptions {
  /** The path of the weblocks program: that of the variable WEBLOCKS_PROGRAM unless given. */
  program?: string | undefined;
  /** Where it listens: on a free port unless given. */
  port?: number | undefined;
  /** Further options of `weblocks daemon`, as `["--token-file", "tokens"]`. */
  words?: string[] | undefined;
}

/** A server that runs. */
export interface Server {
  readonly url: string;
  readonly port: number;
  /** The number of its process. */
  readonly pid: number;
  /** Ends it in good order: each of its clients is told. */
  stop(): Promise<void>;
  /** Ends it at once, as a machine ends that fails. */
  kill(): Promise<void>;
}

/** A server for a test file. */
export interface TestServer {
  /** Where it listens, once the tests have begun. */
  readonly url: string;
  /** Connects a new agent, of `https://weblocks.test` unless an origin is given; it is closed after the tests. */
  connect(options?: Partial<ConnectOptions>): Promise<LockManager>;
}

/** Starts a server, on a free port unless one is named. It ends with this program at the latest. */
export function startServer(options?: ServerOptions): Promise<Server>;

/** Has a server run while the tests of a file do; to be called once, before them. */
export function useServer(options?: ServerOptions): TestServer;
