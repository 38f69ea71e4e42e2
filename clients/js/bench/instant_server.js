/**
 * A server for the benchmark alone, on a thread of its own: it pushes, and knows nothing but exclusive locks that are
 * requested and released. What it costs is little, so that the clients' cost shows.
 */

import { once } from "node:events";
import { parentPort } from "node:worker_threads";
import { WebSocketServer } from "../test/support/sockets.js";

let lastNumber = 0;
let lastClient = 0;
/** For each name its requests, the first of which holds the lock. */
const queues = new Map();

const granted = (request) => ({ phase: "granted", request });

/** Does a message of a socket, and gives what is told of it: `ok`, and notices. */
function answer(socket, message) {
  switch (message.op) {
    case "open":
      lastClient += 1;
      return { ok: { client: `client-${lastClient}` } };
    case "signal":
      lastNumber += 1;
      return { ok: { signal: lastNumber } };
    case "request":
      return request(socket, message.name);
    case "release":
      return release(socket, message.request);
    case "query":
      return { ok: snapshot() };
    default:
      return { ok: {} };
  }
}

function request(socket, name) {
  lastNumber += 1;
  const queue = queues.get(name) ?? [];
  queues.set(name, queue);
  queue.push({ socket, number: lastNumber });
  return { ok: { request: lastNumber }, notices: queue.length === 1 ? [granted(lastNumber)] : [] };
}

function release(socket, number) {
  for (const queue of queues.values()) {
    if (queue[0]?.number !== number) continue;
    queue.shift();
    const next = queue[0];
    const notices = next === undefined ? [] : [granted(next.number)];
    if (next?.socket === socket) return { ok: { release: "released" }, notices };
    next?.socket.send(JSON.stringify({ id: null, notices, ok: {} }));
    return { ok: { release: "released" } };
  }
  return { ok: { release: "not-held" } };
}

function snapshot() {
  const show = (name) => ({ clientId: "client-0", mode: "exclusive", name });
  const all = [...queues].flatMap(([name, queue]) => queue.map((_, place) => ({ place, lock: show(name) })));
  return {
    held: all.filter(({ place }) => place === 0).map(({ lock }) => lock),
    pending: all.filter(({ place }) => place > 0).map(({ lock }) => lock),
  };
}

const server = new WebSocketServer({ host: "127.0.0.1", port: 0, handleProtocols: () => "weblocks.push" });
server.on("connection", (socket) => {
  socket.on("message", (data) => {
    const message = JSON.parse(data);
    const { ok, notices = [] } = answer(socket, message);
    socket.send(JSON.stringify({ id: message.id, notices, ok }));
  });
});
await once(server, "listening");
parentPort.postMessage(`ws://127.0.0.1:${server.address().port}`);
