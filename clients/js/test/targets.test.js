/** What target handshakes ask for, by the vectors that all clients share, and what becomes of one that is refused. */

import assert from "node:assert/strict";
import { readFileSync } from "node:fs";
import { test } from "node:test";
import { install } from "../polyfill.js";
import { readSettings } from "../src/settings.js";
import { assertRejects, hold, until } from "./support/holding.js";
import { connectTo, startPushing, startRelayed } from "./support/servers.js";
import { WebSocket } from "./support/sockets.js";

const VECTORS = JSON.parse(readFileSync(new URL("../../../tests/clients.d/targets.json", import.meta.url)));
const TARGET = "/?origin=https%3A%2F%2Fa.test";

const targetsOf = (server) => server.offers.map(({ target }) => target);

test("the target is the origin as the URL standard serializes it, and nothing where it is opaque", () => {
  for (const { origin, target } of VECTORS) {
    for (const url of ["ws://127.0.0.1:9", "ws://127.0.0.1:9/"]) {
      assert.equal(readSettings({ url, origin }).url, `ws://127.0.0.1:9${target}`, origin);
    }
  }
  assert.equal(readSettings({ url: "ws://127.0.0.1:9", origin: "null" }).url, "ws://127.0.0.1:9/");
});

test("a URL with a path or a query of its own stays as it is", () => {
  for (const url of ["ws://127.0.0.1:9/locks", "wss://a.test/?shard=1", "ws://a.test/?origin=https%3A%2F%2Fb.test"]) {
    assert.equal(readSettings({ url, origin: "https://a.test" }).url, url);
  }
});

test("each handshake has it, with a subprotocol and without, and after a loss too", async (t) => {
  const server = await startRelayed(t, { token: "secret", selects: false });
  const locks = await connectTo(t, server, { token: "secret" });
  const restored = new Promise((resolve) => locks.addEventListener("restored", resolve));
  server.closeAll(1001);
  await restored;
  assert.deepEqual(targetsOf(server), [TARGET, TARGET, TARGET, TARGET]);
});

test("a target that is refused (400) is a SecurityError that names it", async (t) => {
  const server = await startRelayed(t);
  server.target = TARGET;
  const locks = await connectTo(t, server);
  assert.equal(await locks.request("db", () => 1), 1);
  const fault = await assertRejects(connectTo(t, server, { origin: "https://b.test" }), "SecurityError");
  assert.match(fault.message, /\/\?origin=https%3A%2F%2Fb\.test: .*400/);
});

test("it isn't tried again: not by what was installed, and not after a loss", async (t) => {
  const server = await startRelayed(t);
  server.target = TARGET;
  const installed = install({ url: server.url, origin: "https://b.test", WebSocket });
  t.after(() => installed.close());
  const waiting = assertRejects(installed.request("db", () => assert.fail("it was called")), "SecurityError");
  assert.equal((await installed.closed).name, "SecurityError");
  await waiting;
  assert.equal(server.offers.length, 2, "one handshake with a subprotocol, and one without");

  const locks = await connectTo(t, server);
  const { promise } = await hold(locks, "db");
  const lost = assertRejects(promise, "NetworkError");
  server.target = "/another";
  server.closeAll(1001);
  await lost;
  assert.equal((await locks.closed).name, "SecurityError");
  assert.equal(server.offers.length, 5);
  await until(() => server.open === 0);
});

test("a daemon with --sharded takes the target of each origin, and of no opaque one", async (t) => {
  const server = await startPushing(t, { words: ["--sharded"] });
  for (const { origin, target } of VECTORS) {
    if (target === "/") {
      await assertRejects(connectTo(t, server, { origin }), "SecurityError");
    } else {
      const locks = await connectTo(t, server, { origin });
      assert.equal(await locks.request("db", () => 1), 1, origin);
      await locks.close();
    }
  }
});

test("over the target of one origin it lets none open another", async (t) => {
  const server = await startPushing(t, { words: ["--sharded"] });
  const url = `${server.url}/?origin=https%3A%2F%2Fb.test`;
  const locks = await connectTo(t, { url }, { origin: "https://b.test/page" });
  assert.equal(await locks.request("db", () => 1), 1);
  const fault = await assertRejects(connectTo(t, { url }), "SecurityError");
  assert.doesNotMatch(fault.message, /400/);
});
