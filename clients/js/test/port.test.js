/** A connection over the port of a worker: what is handed over, and what is said of the connection itself. */

import assert from "node:assert/strict";
import { execFile } from "node:child_process";
import { test } from "node:test";
import { promisify } from "node:util";
import { PortSocket } from "../src/port_socket.js";
import { connect } from "../weblocks.js";
import { assertRejects, until } from "./support/holding.js";

const run = promisify(execFile);
const PACKAGE = new URL("../weblocks.js", import.meta.url).href;

/** A worker's side of a door: the ends of the channels that were handed over, and what came by each. */
function listen(t) {
  const { port1, port2 } = new MessageChannel();
  const ends = [];
  port2.onmessage = ({ data, ports: [port] }) => {
    const end = { asked: data, port, came: [], isClosed: false };
    port.onmessage = ({ data: text }) => end.came.push(text);
    port.addEventListener("close", () => {
      end.isClosed = true;
    });
    ends.push(end);
  };
  t.after(() => {
    for (const { port } of ends) port.close();
    port1.close();
  });
  return { door: port1, ends };
}

/** A socket that has opened, with the worker's end of it and its events. */
async function open(t) {
  const { door, ends } = listen(t);
  const socket = new PortSocket(door);
  const events = [];
  for (const name of ["open", "message", "close"]) {
    socket[`on${name}`] = (event) => events.push([name, event?.data ?? event?.code]);
  }
  await until(() => ends.length === 1);
  const [end] = ends;
  assert.equal(socket.readyState, 0);
  end.port.postMessage({ type: "open" });
  await until(() => events.length === 1);
  assert.equal(socket.readyState, 1);
  return { socket, end, events };
}

test("each connection is a channel of its own, one end of which goes over the door", async (t) => {
  const { door, ends } = listen(t);
  new PortSocket(door).close();
  new PortSocket(() => door).close();
  await until(() => ends.length === 2);
  assert.deepEqual(ends.map(({ asked }) => asked), [{ type: "connect" }, { type: "connect" }]);
  assert.notEqual(ends[0].port, ends[1].port);
});

test("texts go both ways in their order", async (t) => {
  const { socket, end, events } = await open(t);
  for (const text of ["1", "2"]) {
    socket.send(text);
    end.port.postMessage(text);
  }
  await until(() => events.length === 3);
  assert.deepEqual(events, [["open", undefined], ["message", "1"], ["message", "2"]]);
  await until(() => end.came.includes("2"));
  assert.deepEqual(end.came.filter((it) => typeof it === "string"), ["1", "2"]);
});

test("a ping is answered by a pong", async (t) => {
  const { end } = await open(t);
  end.port.postMessage({ type: "ping" });
  await until(() => end.came.some(({ type }) => type === "pong"));
});

test("what it doesn't know of is passed over", async (t) => {
  const { end, events } = await open(t);
  for (const data of [null, 5, {}, { type: "other" }]) end.port.postMessage(data);
  end.port.postMessage("a text");
  await until(() => events.length === 2);
  assert.deepEqual(events[1], ["message", "a text"]);
});

test("whoever closes says so, behind what was sent before", async (t) => {
  const { socket, end, events } = await open(t);
  socket.send("last");
  socket.close();
  socket.send("never");
  await until(() => end.isClosed);
  const came = end.came.filter((it) => it.type !== "hold");
  assert.deepEqual(came, ["last", { type: "close" }]);
  assert.deepEqual(events, [["open", undefined]]);
});

test("an end that the worker tells has its code; one of which nothing is said has 1006", async (t) => {
  const told = await open(t);
  told.end.port.postMessage({ type: "close", code: 1011, reason: "out of memory" });
  await until(() => told.events.length === 2);
  const untold = await open(t);
  untold.end.port.close();
  await until(() => untold.events.length === 2);
  assert.deepEqual([told.events[1], untold.events[1]], [["close", 1011], ["close", 1006]]);
  assert.deepEqual([told.socket.readyState, untold.socket.readyState], [3, 3]);
});

test("a port behind which nobody answers is a NetworkError, once a heartbeat has passed", async (t) => {
  const { port1 } = new MessageChannel();
  t.after(() => port1.close());
  await assertRejects(connect({ port: port1, origin: "https://a.test", heartbeat: 50 }), "NetworkError");
});

test("a worker that doesn't serve the port is a NetworkError", async (t) => {
  const { door, ends } = listen(t);
  const refused = connect({ port: door, origin: "https://a.test" });
  await until(() => ends.length === 1);
  ends[0].port.postMessage({ type: "close", code: 1011, reason: "the module can't be had" });
  await assertRejects(refused, "NetworkError");
});

test("a function that gives no port leaves nothing behind: connect rejects, and the program ends", async () => {
  const program = `
    import { connect } from ${JSON.stringify(PACKAGE)};
    let listeners = 0;
    globalThis.addEventListener = () => { listeners += 1; };
    globalThis.removeEventListener = () => { listeners -= 1; };
    const doors = [() => { throw new Error("no worker"); }, () => undefined];
    for (const port of doors) {
      await connect({ port, origin: "https://a.test" }).catch(({ name }) => console.log(name));
    }
    console.log(listeners);
  `;
  // (one that hasn't ended by then is killed, and the test fails)
  const { stdout } = await run(process.execPath, ["--input-type=module", "-e", program], { timeout: 10_000 });
  assert.equal(stdout, "Error\nTypeError\n0\n");
});
