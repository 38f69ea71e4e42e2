/** What clients make of who a daemon lets in, of its limits, and of its silence. */

import assert from "node:assert/strict";
import { test } from "node:test";
import { install } from "../polyfill.js";
import { assertFree, assertRejects, hold, until, untilPending, watch } from "./support/holding.js";
import { Proxy } from "./support/proxy.js";
import { connectTo, startPushing } from "./support/servers.js";
import { WebSocket } from "./support/sockets.js";
import { startWithTokens } from "./support/tokens.js";

/** A class of sockets that names an origin, as a browser does for a page of it. */
function socketsOfPage(origin) {
  return class extends WebSocket {
    constructor(url, protocols) {
      super(url, protocols, { origin });
    }
  };
}

/** Notes the sockets that are made. */
function noteSockets() {
  const made = [];
  class Noted extends WebSocket {
    constructor(...given) {
      super(...given);
      made.push(this);
    }
  }
  return { made, Noted };
}

test("pushes are selected by the first handshake, with a token beside them too", async (t) => {
  for (const token of [undefined, "se.cr_et-1"]) {
    const server = token === undefined ? await startPushing(t) : await startWithTokens(t, ["other", token]);
    const { made, Noted } = noteSockets();
    const locks = await connectTo(t, server, { token, WebSocket: Noted });
    assert.equal(await locks.request("db", (lock) => lock.name), "db");
    assert.deepEqual(made.map(({ protocol }) => protocol), ["weblocks.push"]);
  }
});

test("a wrong token, and none, is a NetworkError that names the token and the status 401", async (t) => {
  const server = await startWithTokens(t, ["right"]);
  for (const token of ["wrong", "righ", "rightt", undefined]) {
    const fault = await assertRejects(connectTo(t, server, { token }), "NetworkError");
    assert.match(fault.message, /wants a token, of those that it knows \(status 401\)$/);
  }
});

test("a token that is another origin's is a SecurityError", async (t) => {
  const server = await startWithTokens(t, ["narrow https://a.test http://b.test:81"]);
  for (const origin of ["https://a.test", "http://b.test:81"]) {
    const locks = await connectTo(t, server, { token: "narrow", origin });
    assert.equal(await locks.request("db", () => 1), 1);
  }
  await assertRejects(connectTo(t, server, { token: "narrow", origin: "https://c.test" }), "SecurityError");
});

test("a page of another origin is refused with SecurityError, and its own page isn't", async (t) => {
  const server = await startPushing(t);
  const own = await connectTo(t, server, { WebSocket: socketsOfPage("https://a.test") });
  assert.equal(await own.request("db", () => 1), 1);
  const foreign = { WebSocket: socketsOfPage("https://foreign.test") };
  const fault = await assertRejects(connectTo(t, server, foreign), "SecurityError");
  assert.ok(fault.message.length > 0);
});

test("a page that a daemon doesn't let in isn't tried again: what it asks rejects with SecurityError", async (t) => {
  const server = await startPushing(t);
  const foreign = socketsOfPage("https://foreign.test");
  const locks = install({ url: server.url, origin: "https://a.test", WebSocket: foreign });
  t.after(() => locks.close());
  const waiting = assertRejects(navigator.locks.request("db", () => assert.fail("it was called")), "SecurityError");
  assert.equal((await locks.closed).name, "SecurityError");
  await waiting;
  await assertRejects(navigator.locks.request("db", () => {}), "SecurityError");
});

test("a page of an opaque origin has no locks: SecurityError before and after it is refused", async (t) => {
  const server = await startPushing(t);
  const locks = install({ url: server.url, origin: "null", WebSocket: socketsOfPage("null") });
  t.after(() => locks.close());
  await assertRejects(locks.request("db", () => {}), "SecurityError");
  await locks.closed;
  await assertRejects(locks.request("db", () => {}), "SecurityError");
  await assertRejects(locks.query(), "SecurityError");
});

test("a manager too many is a QuotaExceededError, and what waits comes in when another has gone", async (t) => {
  const server = await startPushing(t, { words: ["--managers", "1"] });
  const agents = [await connectTo(t, server), await connectTo(t, server)];
  for (const other of [{ origin: "https://b.test" }, { bucket: "inbox" }]) {
    await assertRejects(connectTo(t, server, other), "QuotaExceededError");
  }
  const late = install({ url: server.url, origin: "https://b.test", WebSocket });
  t.after(() => late.close());
  const waiting = watch(late.request("db", () => "there is room"));
  assert.equal(await agents[0].request("db", () => 1), 1);
  assert.equal(waiting.state, "pending");
  for (const locks of agents) await locks.close();
  assert.equal((await waiting.settled).value, "there is room");
});

test("a server without a further place is a NetworkError, and has one when another client has gone", async (t) => {
  const server = await startPushing(t, { words: ["--connections", "1"] });
  const locks = await connectTo(t, server);
  const { made, Noted } = noteSockets();
  const fault = await assertRejects(connectTo(t, server, { WebSocket: Noted }), "NetworkError");
  assert.match(fault.message, /no place for a further connection \(status 503\)$/);
  assert.equal(made.length, 1, "it isn't taken for a server that is polled");
  await locks.close();
  let next = null;
  await until(async () => {
    next = await connectTo(t, server).catch(() => null);
    return next !== null;
  });
  assert.equal(await next.request("db", () => 1), 1);
});

test("a server that doesn't answer a handshake isn't taken for one that is polled", async (t) => {
  const server = await startPushing(t);
  const { made, Noted } = noteSockets();
  process.kill(server.pid, "SIGSTOP");
  try {
    await assertRejects(connectTo(t, server, { WebSocket: Noted, heartbeat: 500 }), "NetworkError");
  } finally {
    process.kill(server.pid, "SIGCONT");
  }
  assert.equal(made.length, 1);
});

test("a client that was cut off knows it before its lock passes on", async (t) => {
  const idle = 4;
  const server = await startPushing(t, { words: ["--idle", String(idle)] });
  const proxy = await Proxy.start(t, server);
  const locks = await connectTo(t, proxy, { heartbeat: (idle * 1000) / 4, reconnect: false });
  const other = await connectTo(t, server, { heartbeat: (idle * 1000) / 4 });
  const holding = await hold(locks, "db");
  const events = [];
  const lost = assertRejects(holding.promise, "NetworkError").then(() => events.push("lost"));
  const passed = other.request("db", () => { events.push("passed on"); });
  await untilPending(other, 1);
  proxy.swallows = true;
  await Promise.all([lost, passed]);
  assert.deepEqual(events, ["lost", "passed on"]);
  await assertFree(other);
});

test("locks of a client whose machine vanished pass on, and it has no place any more", async (t) => {
  const server = await startPushing(t, { words: ["--idle", "1"] });
  const proxy = await Proxy.start(t, server);
  const locks = await connectTo(t, proxy, { heartbeat: 600_000 });
  const other = await connectTo(t, server);
  await hold(locks, "db");
  proxy.swallows = true;
  assert.equal(await other.request("db", () => "passed on"), "passed on");
  await assertFree(other);
});
