/** A weblocks server for the tests of a file, by `node:test`. */

import { spawn } from "node:child_process";
import { once } from "node:events";
import { createInterface } from "node:readline";
import { after, before } from "node:test";
import { connect } from "./weblocks.js";

/** What a server may take to end once its input has, in milliseconds. */
const ENDING = 10_000;

/**
 * Starts a server, on a free port unless one is named. It ends when its input does, and so with this program.
 *
 * @param {{program?: string, port?: number, words?: string[]}} [options] the program's path; where it is absent, that
 *   of WEBLOCKS_PROGRAM; and further options of `weblocks daemon`
 * @returns {Promise<Server>}
 */
export async function startServer({ program = process.env.WEBLOCKS_PROGRAM, port = 0, words = [] } = {}) {
  if (!program) throw new TypeError("Name the weblocks program: by the option program, or by WEBLOCKS_PROGRAM");
  const child = spawn(program, ["daemon", "--listen", `127.0.0.1:${port}`, "--while-input", ...words]);
  child.stdin.on("error", () => {});
  const exited = new Promise((resolve) => child.once("exit", resolve));
  const told = [];
  child.stderr.on("data", (text) => told.push(text));
  const listening = once(createInterface(child.stdout), "line");
  const failed = new Promise((resolve, reject) => {
    child.once("error", reject);
    child.once("close", () => reject(new Error(`${program} ended: ${Buffer.concat(told).toString().trim()}`)));
  });
  failed.catch(() => {});
  const [line] = await Promise.race([listening, failed]);
  child.stderr.removeAllListeners("data").resume();
  return new Server(child, exited, Number(line.slice(line.lastIndexOf(":") + 1)));
}

/**
 * Has a server run while the tests of a file do; to be called once, before them.
 *
 * @param {{program?: string, port?: number, words?: string[]}} [options] as those of `startServer`
 * @returns {TestServer}
 */
export function useServer(options) {
  const server = new TestServer();
  before(() => server.start(options));
  after(() => server.stop());
  return server;
}

/** A server that runs. */
class Server {
  #child;
  #exited;

  constructor(child, exited, port) {
    this.#child = child;
    this.#exited = exited;
    this.port = port;
    this.url = `ws://127.0.0.1:${port}`;
  }

  /** The number of its process. */
  get pid() {
    return this.#child.pid;
  }

  /** Ends it in good order: each of its clients is told. */
  async stop() {
    this.#child.stdin.end();
    const timer = setTimeout(() => this.#child.kill("SIGKILL"), ENDING);
    await this.#exited;
    clearTimeout(timer);
  }

  /** Ends it at once, as a machine ends that fails. */
  async kill() {
    this.#child.kill("SIGKILL");
    await this.#exited;
  }
}

/** A server for a test file, whose LockManagers are closed with it. */
class TestServer {
  #server = null;
  #managers = [];

  /** Where it listens, once the tests have begun. */
  get url() {
    if (this.#server === null) throw new TypeError("The server runs while the tests do: use it in a test or a hook");
    return this.#server.url;
  }

  /** Connects a new agent to it; without an origin that of `https://weblocks.test`. */
  async connect(options = {}) {
    const locks = await connect({ url: this.url, origin: "https://weblocks.test", ...options });
    this.#managers.push(locks);
    return locks;
  }

  /** Starts it, as the hook before the tests does. */
  async start(options) {
    this.#server = await startServer(options);
  }

  /** Closes its LockManagers and ends it, as the hook after the tests does. */
  async stop() {
    await Promise.all(this.#managers.map((locks) => locks.close()));
    await this.#server?.stop();
  }
}
