/** Connections over a Unix socket, by the package ws: through a relay on one, and to a daemon that listens on one. */

import assert from "node:assert/strict";
import { execFile } from "node:child_process";
import { mkdtemp, rm } from "node:fs/promises";
import { tmpdir } from "node:os";
import { join } from "node:path";
import { test } from "node:test";
import { promisify } from "node:util";
import { connect } from "../weblocks.js";
import { assertRejects, hold } from "./support/holding.js";
import { connectTo, startRelayed } from "./support/servers.js";
import { startWithTokens } from "./support/tokens.js";

const run = promisify(execFile);
const PACKAGE = new URL("../weblocks.js", import.meta.url).href;
const TARGET = "/?origin=https%3A%2F%2Fa.test";
const ORIGIN = "https://a.test";

async function newPath(t) {
  const folder = await mkdtemp(join(tmpdir(), "weblocks-unix-"));
  t.after(() => rm(folder, { recursive: true }));
  return join(folder, "socket");
}

async function startOnSocket(t, options = {}) {
  return startRelayed(t, { path: await newPath(t), ...options });
}

/** What a program of its own says that connects to this URL, begun by these lines. */
async function saidOf(url, lines, env = {}) {
  const program = `
    import { connect } from ${JSON.stringify(PACKAGE)};
    const { log } = console;
    ${lines}
    await connect({ url: ${JSON.stringify(url)}, origin: "${ORIGIN}" }).then(
      async (locks) => {
        log(await locks.request("db", () => "granted"));
        await locks.close();
      },
      (fault) => log(String(fault)),
    );
  `;
  const words = ["--input-type=module", "-e", program];
  return (await run(process.execPath, words, { env: { PATH: process.env.PATH, ...env } })).stdout.trim();
}

test("a lock is had over it, with pushes and the origin's target", async (t) => {
  const server = await startOnSocket(t);
  const [a, b] = [await connectTo(t, server), await connectTo(t, server)];
  const holding = await hold(a, "db");
  const told = b.request("db", () => "told");
  holding.release();
  assert.equal(await told, "told");
  const wanted = { protocols: ["weblocks.push"], authorization: undefined, target: TARGET };
  assert.deepEqual(server.offers, [wanted, wanted]);
});

test("a server on it may be polled, and get a token as a header", async (t) => {
  const server = await startOnSocket(t, { token: "secret", selects: false });
  const locks = await connectTo(t, server, { token: "secret", poll: 5 });
  assert.equal(await locks.request("db", () => 1), 1);
  assert.deepEqual(server.offers.map(({ target }) => target), [TARGET, TARGET]);
  assert.equal(server.offers[1].authorization, "Bearer secret");
});

test("a path may begin with several slashes, and an opaque origin has the target /", async (t) => {
  const server = await startOnSocket(t);
  const locks = await connectTo(t, { url: server.url.replace("unix:", "unix://") }, { origin: "null" });
  await assertRejects(locks.request("db", () => {}), "SecurityError");
  assert.equal(server.offers[0].target, "/");
});

test("after a loss it is connected to again", async (t) => {
  const server = await startOnSocket(t);
  const locks = await connectTo(t, server);
  const restored = new Promise((resolve) => locks.addEventListener("restored", resolve));
  server.closeAll(1001);
  await restored;
  assert.equal(await locks.request("db", () => 1), 1);
});

test("where nobody listens, connect rejects with NetworkError, whatever number the path ends in", async (t) => {
  for (const end of ["", "400", "503"]) {
    await assertRejects(connectTo(t, { url: `unix:${await newPath(t)}${end}` }), "NetworkError");
  }
});

test("a path that ws can't be given is a TypeError, and so is a missing origin", async () => {
  const wrong = ["", "/a b", "/a:b", "/a?b", "/a#b", "/a/../b", "/a/./b", "/ä", "/a\n"];
  for (const path of wrong) {
    await assert.rejects(connect({ url: `unix:${path}`, origin: ORIGIN }), TypeError, path);
  }
  await assert.rejects(connect({ url: "unix:/a" }), TypeError);
});

test("the package ws is loaded for it, though the platform has sockets of its own", async (t) => {
  const { url } = await startOnSocket(t);
  const lines = "globalThis.WebSocket = class { constructor() { throw new Error('it was made'); } };";
  assert.equal(await saidOf(url, lines, { NODE_PATH: "/usr/share/nodejs" }), "granted");
});

test("where ws isn't there, or a class was given that has no such sockets, connect says so", async (t) => {
  const url = `unix:${await newPath(t)}`;
  const wanted = /^TypeError: A Unix socket wants the package ws: install it/;
  assert.match(await saidOf(url, "globalThis.WebSocket = class {};"), wanted);
  class Own {
    constructor(given) {
      throw new DOMException(`'${given}' has another scheme`, "SyntaxError");
    }
  }
  await assert.rejects(connect({ url, origin: ORIGIN, WebSocket: Own }), wanted);
});

test("a page has none: connect says so", async (t) => {
  const said = await saidOf(`unix:${await newPath(t)}`, "globalThis.process = undefined;");
  assert.match(said, /^TypeError: A page has no Unix sockets/);
});

test("a daemon lets in whoever reaches its socket, without a token", async (t) => {
  const path = await newPath(t);
  const server = await startWithTokens(t, ["right"], ["--listen", `unix:${path}`]);
  await assertRejects(connectTo(t, server), "NetworkError");
  const locks = await connectTo(t, { url: `unix:${path}` });
  const other = await connectTo(t, server, { token: "right" });
  await locks.request("db", async (lock) => {
    assert.equal(lock.name, "db");
    await other.request("db", { ifAvailable: true }, (taken) => assert.equal(taken, null));
  });
});
