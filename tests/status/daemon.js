/** A daemon with its status, and agents of it. */

import { spawn } from "node:child_process";
import { once } from "node:events";
import { createInterface } from "node:readline";
import { inTime } from "../../clients/js/test/browser/chromium.js";
import { hold } from "../../clients/js/test/support/holding.js";
import { connectTo, PROGRAM } from "../../clients/js/test/support/servers.js";

/** The origin of agents of whom nothing else is said. */
export const ORIGIN = "https://a.test";

/** Starts the program as a daemon, which ends with its input, and gives where it listens, by what it prints. */
async function start(t) {
  const words = ["daemon", "--listen", "127.0.0.1:0", "--while-input", "--status", "127.0.0.1:0"];
  const child = spawn(PROGRAM, words, { stdio: ["pipe", "pipe", "inherit"] });
  const exited = once(child, "exit");
  t.after(async () => {
    child.stdin.end();
    await inTime("the daemon's end", exited).catch(() => child.kill("SIGKILL"));
  });
  const lines = createInterface(child.stdout)[Symbol.asyncIterator]();
  const addressAfter = async (word) => {
    const { value = "" } = await inTime(`the daemon's ${word}`, lines.next());
    if (!value.startsWith(`${word} `)) throw new Error(`the daemon printed ${value}`);
    return value.slice(word.length + 1);
  };
  const url = `ws://${await addressAfter("listening")}`;
  return { url, page: `http://${await addressAfter("status")}/` };
}

/** A daemon: the URL at which agents connect, and that of its page. Each origin has an observer. The test ends it. */
export async function startDaemon(t, origins = [ORIGIN]) {
  const daemon = await start(t);
  await Promise.all(origins.map((it) => connectTo(t, daemon, { origin: it })));
  return daemon;
}

/** New agents of a daemon, whom it calls by their numbers in the order of the list, from 2 on. */
export async function connectAgents(t, daemon, count, options) {
  const agents = [];
  while (agents.length < count) agents.push(await connectTo(t, daemon, options));
  return agents;
}

/** Asks for a lock that isn't free; `had` is fulfilled as `hold` is once it is held. */
export async function wait(locks, name, options) {
  const before = (await locks.query()).pending.length;
  const had = hold(locks, name, options);
  had.catch(() => {});
  while ((await locks.query()).pending.length === before);
  return { had };
}

export { hold };
