/** `weblocks serve`, which doesn't push: its clients poll. */

import { spawn } from "node:child_process";
import { once } from "node:events";
import { createServer } from "node:net";
import { createInterface } from "node:readline";

/** It ends after so many connections: this is the most that it takes. */
const MOST_CLIENTS = 10_000;

/** Another program may take a free port before the server does. */
const TRIES = 5;

/** Starts one, on a free port unless one is named; it ends with this program at the latest. */
export async function startServing(program, port) {
  if (port !== undefined) return startOn(program, port);
  for (let tries = 1; ; tries += 1) {
    try {
      return await startOn(program, await freePort());
    } catch (fault) {
      if (tries === TRIES) throw fault;
    }
  }
}

async function startOn(program, port) {
  const words = ["serve", "--port", String(port), "--clients", String(MOST_CLIENTS)];
  const child = spawn(program, words, { stdio: ["ignore", "pipe", "inherit"] });
  const end = () => child.kill("SIGKILL");
  process.once("exit", end);
  const ended = once(child, "exit");
  const listening = once(createInterface(child.stdout), "line");
  const failed = ended.then(([status]) => {
    throw new Error(`${program} serve ended with status ${status}`);
  });
  failed.catch(() => {});
  await Promise.race([listening, failed]);
  const kill = async () => {
    end();
    await ended;
    process.off("exit", end);
  };
  return { port, url: `ws://127.0.0.1:${port}`, pid: child.pid, kill, stop: kill };
}

async function freePort() {
  const server = createServer();
  server.listen(0, "127.0.0.1");
  await once(server, "listening");
  const { port } = server.address();
  server.close();
  await once(server, "close");
  return port;
}
