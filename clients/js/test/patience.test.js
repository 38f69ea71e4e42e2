/** How long an answer is waited for, by itself. */

import assert from "node:assert/strict";
import { once } from "node:events";
import { createServer } from "node:net";
import { test } from "node:test";
import { setTimeout as sleep } from "node:timers/promises";
import { Worker } from "node:worker_threads";
import { losePatience } from "../src/patience.js";

/** Milliseconds, of which a quarter is a part. */
const PATIENCE = 400;

/** A peer on another thread, which sends when it is told to, and says when it has. */
const PEER = `
const { connect } = require("node:net");
const { workerData: { port, word } } = require("node:worker_threads");
const socket = connect(port, "127.0.0.1", () => {
  Atomics.wait(word, 0, 0);
  socket.write("answer", () => {
    Atomics.store(word, 0, 2);
    socket.end();
  });
});
`;

test("it is lost once, after that time, unless it is given up", async () => {
  let losses = 0;
  const began = performance.now();
  await new Promise((resolve) => losePatience(PATIENCE, () => {
    losses += 1;
    resolve();
  }));
  assert.ok(performance.now() - began >= PATIENCE - 5);
  const giveUp = losePatience(PATIENCE / 4, () => { losses += 1; });
  giveUp();
  await sleep(PATIENCE);
  assert.equal(losses, 1);
});

test("what came while the event loop stood still, in its last part, is read before it is lost", async (t) => {
  const server = createServer().listen(0, "127.0.0.1");
  t.after(() => server.close());
  await once(server, "listening");
  const word = new Int32Array(new SharedArrayBuffer(4));
  new Worker(PEER, { eval: true, workerData: { port: server.address().port, word } });
  const [socket] = await once(server, "connection");
  const told = await new Promise((resolve) => {
    const giveUp = losePatience(PATIENCE, () => resolve("lost"));
    socket.once("data", () => {
      giveUp();
      resolve("answered");
    });
    // (what runs here is followed by timers, and then by what came)
    setTimeout(() => setImmediate(() => {
      const end = performance.now() + PATIENCE;
      Atomics.store(word, 0, 1);
      Atomics.notify(word, 0);
      while (performance.now() < end || Atomics.load(word, 0) !== 2);
    }), 0.8 * PATIENCE);
  });
  assert.equal(told, "answered");
});
