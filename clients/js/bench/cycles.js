/**
 * What the client costs over a daemon: cycles beside a program that writes the same messages through the same socket
 * library on one connection, hand-overs of one lock among 64 clients, and the timers of 1,000 requests that wait. Then
 * hand-overs over a server that costs next to nothing.
 *
 *     WEBLOCKS_PROGRAM=../../weblocks node bench/cycles.js
 */

import { once } from "node:events";
import { fileURLToPath } from "node:url";
import { Worker } from "node:worker_threads";
import { startServer } from "../testing.js";
import { WebSocket } from "../test/support/sockets.js";
import { connect } from "../weblocks.js";

/** Each of the two that are compared has its turn for so many milliseconds, and so many turns. */
const TURN = 200;
const TURNS = 25;

/** So many cycles before, in which the engine learns what to compile. */
const WARMING = 4000;

const CLIENTS = 64;
const HAND_OVER_TIME = 3000;
const WAITING = 1000;

const PROGRAM = process.env.WEBLOCKS_PROGRAM || fileURLToPath(new URL("../../../weblocks", import.meta.url));
const ORIGIN = "https://bench.test";

/** The middle one of an odd number of figures. */
function median(figures) {
  return figures.sort((a, b) => a - b)[(figures.length - 1) / 2];
}

/** How many microseconds one takes, and of the processor, of those that are done in so many milliseconds. */
async function time(milliseconds, run) {
  const before = performance.now();
  const used = process.cpuUsage();
  let count = 0;
  const isOver = () => performance.now() - before >= milliseconds;
  await run(isOver, () => { count += 1; });
  const { user, system } = process.cpuUsage(used);
  return { time: ((performance.now() - before) / count) * 1000, processor: (user + system) / count };
}

/** A connection without a client: a message, its reply, and the next. */
async function openPlain(url) {
  const socket = new WebSocket(url, "weblocks.push");
  await once(socket, "open");
  let answered;
  let id = 0;
  socket.onmessage = ({ data }) => answered(JSON.parse(data));
  const ask = (message) => {
    id += 1;
    socket.send(JSON.stringify({ id, ...message }));
    return new Promise((resolve) => { answered = resolve; });
  };
  await ask({ op: "open", url: ORIGIN });
  const cycle = async () => {
    const { ok } = await ask({ op: "request", name: "plain", options: {} });
    await ask({ op: "release", request: ok.request });
  };
  return { cycle, end: () => socket.close() };
}

async function compareCycles(url) {
  const plain = await openPlain(url);
  const locks = await connect({ url, origin: ORIGIN, WebSocket });
  const repeat = (cycle) => async (isOver, count) => {
    for (; !isOver(); count()) await cycle();
  };
  const own = () => locks.request("client", () => {});
  for (let count = 0; count < WARMING; count += 1) {
    await plain.cycle();
    await own();
  }
  const turns = [];
  for (let turn = 0; turn < TURNS; turn += 1) {
    turns.push({ plain: await time(TURN, repeat(plain.cycle)), client: await time(TURN, repeat(own)) });
  }
  plain.end();
  await locks.close();
  for (const who of ["plain", "client"]) {
    const of = (what) => median(turns.map((figures) => figures[who][what]));
    const perSecond = Math.round(1e6 / of("time"));
    console.log(`cycles, ${who}: ${of("time").toFixed(1)} us, ${of("processor").toFixed(1)} us of the processor, `
      + `${perSecond} a second`);
  }
  for (const what of ["time", "processor"]) {
    const ratio = median(turns.map(({ client, plain: other }) => client[what] / other[what]));
    console.log(`the client's ${what} a cycle: ${ratio.toFixed(2)} of the plain socket's`);
  }
}

async function countHandOvers(url, over) {
  const options = { url, origin: ORIGIN, WebSocket, heartbeat: 60_000 };
  const clients = await Promise.all(Array.from({ length: CLIENTS }, () => connect(options)));
  const pass = (isOver, count) => {
    return Promise.all(clients.map(async (locks) => {
      while (!isOver()) await locks.request("baton", count);
    }));
  };
  await time(HAND_OVER_TIME, pass);
  const { time: one, processor } = await time(HAND_OVER_TIME, pass);
  console.log(`hand-overs among ${CLIENTS} clients over ${over}: ${one.toFixed(1)} us, `
    + `${processor.toFixed(1)} us of the processor, ${Math.round(1e6 / one)} a second`);
  await Promise.all(clients.map((locks) => locks.close()));
}

async function countTimers(url) {
  const [a, b] = [await connect({ url, origin: ORIGIN, WebSocket }), await connect({ url, origin: ORIGIN, WebSocket })];
  const timers = () => process.getActiveResourcesInfo().filter((name) => name === "Timeout").length;
  let release;
  const held = new Promise((granted) => {
    a.request("db", () => {
      granted();
      return new Promise((resolve) => { release = resolve; });
    });
  });
  await held;
  const before = timers();
  const waiting = Array.from({ length: WAITING }, () => b.request("db", () => {}));
  while ((await a.query()).pending.length < WAITING);
  console.log(`timers: ${before} before, ${timers()} with ${WAITING} requests that wait`);
  release();
  await Promise.all(waiting);
  await Promise.all([a.close(), b.close()]);
}

/** The server that grants at once, on a thread of its own. */
async function startInstant() {
  const worker = new Worker(new URL("./instant_server.js", import.meta.url));
  const [url] = await once(worker, "message");
  return { url, stop: () => worker.terminate() };
}

const server = await startServer({ program: PROGRAM });
await compareCycles(server.url);
await countHandOvers(server.url, "a daemon");
await countTimers(server.url);
await server.stop();

const instant = await startInstant();
await countHandOvers(instant.url, "a server that grants at once");
await instant.stop();
