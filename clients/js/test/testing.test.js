/** A server for the tests of a file. */

import assert from "node:assert/strict";
import { spawn } from "node:child_process";
import { once } from "node:events";
import { createInterface } from "node:readline";
import { test } from "node:test";
import { startServer, useServer } from "../testing.js";
import { until } from "./support/holding.js";
import { PROGRAM } from "./support/servers.js";
import { WebSocket } from "./support/sockets.js";

const server = useServer({ program: PROGRAM });

assert.throws(() => server.url, TypeError, "the server runs while the tests do");

test("the file's server runs while its tests do, on a port of 127.0.0.1", async () => {
  assert.match(server.url, /^ws:\/\/127\.0\.0\.1:\d+$/);
  const locks = await server.connect({ WebSocket });
  assert.equal(await locks.request("db", (lock) => lock.name), "db");
});

test("agents are of one origin unless another is given", async () => {
  const [a, b] = [await server.connect({ WebSocket }), await server.connect({ WebSocket })];
  const c = await server.connect({ WebSocket, origin: "https://other.test" });
  await a.request("db", async () => {
    assert.equal(await b.request("db", { ifAvailable: true }, (lock) => lock), null);
    assert.equal(await c.request("db", { ifAvailable: true }, (lock) => lock?.name), "db");
  });
});

test("servers that are started are apart, and end when they are stopped", async () => {
  const [one, two] = [await startServer({ program: PROGRAM }), await startServer({ program: PROGRAM })];
  assert.notEqual(one.port, two.port);
  await one.stop();
  await one.stop();
  await two.stop();
  assert.throws(() => process.kill(one.pid, 0));
});

test("a server ends with the program that started it, whether that ends by itself or by a signal", async () => {
  const testing = new URL("../testing.js", import.meta.url).href;
  for (const signal of [null, "SIGTERM", "SIGINT"]) {
    const program = `
      import { startServer } from ${JSON.stringify(testing)};
      console.log((await startServer({ program: ${JSON.stringify(PROGRAM)} })).pid);
      setTimeout(() => process.exit(), ${signal === null ? 0 : 60_000});
    `;
    const words = ["--input-type=module", "-e", program];
    const child = spawn(process.execPath, words, { stdio: ["ignore", "pipe", "inherit"] });
    const [pid] = await once(createInterface(child.stdout), "line");
    const ended = once(child, "exit");
    if (signal !== null) child.kill(signal);
    const [, by] = await ended;
    assert.equal(by, signal);
    await until(() => !isRunning(Number(pid)));
  }
});

test("without a program, or with one that doesn't run, starting rejects and says why", async () => {
  const before = process.env.WEBLOCKS_PROGRAM;
  delete process.env.WEBLOCKS_PROGRAM;
  await assert.rejects(startServer(), /WEBLOCKS_PROGRAM/);
  if (before !== undefined) process.env.WEBLOCKS_PROGRAM = before;
  await assert.rejects(startServer({ program: "/nowhere/weblocks" }), { code: "ENOENT" });
  await assert.rejects(startServer({ program: process.execPath }), /ended/);
});

function isRunning(pid) {
  try {
    process.kill(pid, 0);
    return true;
  } catch {
    return false;
  }
}
