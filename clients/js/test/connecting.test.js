/** How a connection comes about: sockets, subprotocols, tokens and what connect is rejected with. */

import assert from "node:assert/strict";
import { execFile } from "node:child_process";
import { test } from "node:test";
import { promisify } from "node:util";
import { connect } from "../weblocks.js";
import { Fences } from "./support/fences.js";
import { assertRejects, hold, until, watch } from "./support/holding.js";
import { Proxy } from "./support/proxy.js";
import { connectTo, startPolled, startPushing, startRelayed } from "./support/servers.js";
import { WebSocket } from "./support/sockets.js";

const run = promisify(execFile);
const PACKAGE = new URL("../weblocks.js", import.meta.url).href;
const TARGET = "/?origin=https%3A%2F%2Fa.test";

/** A class of sockets that writes down how each was made. */
function spySockets() {
  const made = [];
  class Spied extends WebSocket {
    constructor(...given) {
      super(...given);
      made.push(given);
    }
  }
  return { made, Spied };
}

test("pushes are asked for by the subprotocol weblocks.push, and one handshake is enough where it is selected",
  async (t) => {
    const server = await startPushing(t);
    const { made, Spied } = spySockets();
    await connectTo(t, server, { WebSocket: Spied });
    assert.deepEqual(made, [[server.url + TARGET, ["weblocks.push"]]]);
  });

test("where that handshake fails, a second one offers no subprotocol, and the server is polled", async (t) => {
  const server = await startPolled(t);
  const { made, Spied } = spySockets();
  const locks = await connectTo(t, server, { WebSocket: Spied, poll: 5 });
  assert.deepEqual(made, [[server.url + TARGET, ["weblocks.push"]], [server.url + TARGET]]);
  assert.equal(await locks.request("db", () => 1), 1);
});

/** Says nothing of why a handshake failed, as a browser's class of sockets. */
class Mute extends WebSocket {
  get onerror() {
    return super.onerror;
  }

  set onerror(heed) {
    super.onerror = () => heed({});
  }
}

test("where the sockets don't say why it fails, a third one offers them again: what refuses for a moment isn't polled",
  async (t) => {
    const server = await startRelayed(t, { fences: new Fences(1) });
    server.statuses = [503];
    const locks = await connectTo(t, server, { WebSocket: Mute, fences: true });
    assert.notEqual(await locks.request("db", (lock) => lock.fence), null);
    const offered = ["weblocks.fence", "weblocks.push"];
    assert.deepEqual(server.offers.map(({ protocols }) => protocols), [offered, [], offered]);
    await until(() => server.open === 1);
  });

test("the third one has the place of the second, which may be the last", async (t) => {
  const server = await startRelayed(t, { fences: new Fences(1) });
  server.statuses = [503];
  server.places = 1;
  const locks = await connectTo(t, server, { WebSocket: Mute, fences: true });
  assert.notEqual(await locks.request("db", (lock) => lock.fence), null);
});

test("where the third one fails too, the server is polled", async (t) => {
  const server = await startRelayed(t, { selects: false });
  const locks = await connectTo(t, server, { WebSocket: Mute, poll: 5 });
  assert.deepEqual(server.offers.map(({ protocols }) => protocols), [["weblocks.push"], [], ["weblocks.push"], []]);
  assert.equal(await locks.request("db", () => 1), 1);
});

test("what a handshake meant is read from the selected subprotocol: where none is, the server is polled", async (t) => {
  const server = await startPolled(t);
  class Lenient extends WebSocket {
    constructor(url) {
      super(url);
    }
  }
  const a = await connectTo(t, server, { WebSocket: Lenient, heartbeat: 600_000 });
  const b = await connectTo(t, server);
  const holding = await hold(b, "db");
  const pending = watch(a.request("db", () => "told"));
  await until(async () => (await b.query()).pending.length === 1);
  holding.release();
  await until(() => pending.state === "fulfilled");
});

test("each reconnection tries pushes anew", async (t) => {
  const proxy = await Proxy.start(t, await startPolled(t));
  const { made, Spied } = spySockets();
  const locks = await connectTo(t, proxy, { WebSocket: Spied });
  const restored = new Promise((resolve) => locks.addEventListener("restored", resolve));
  proxy.cut();
  await restored;
  assert.deepEqual(made.map(([, offered]) => offered), [["weblocks.push"], undefined, ["weblocks.push"], undefined]);
});

test("a server that isn't there for a moment isn't taken for one that is polled", async (t) => {
  const [server, gone] = [await startPushing(t), await startPushing(t)];
  await gone.stop();
  const made = [];
  /** The first handshake comes to where nobody listens, as before a server has started again. */
  class Early extends WebSocket {
    constructor(url, ...offered) {
      super(made.length === 0 ? gone.url : url, ...offered);
      made.push(offered);
    }
  }
  const fault = await assertRejects(connectTo(t, server, { WebSocket: Early }), "NetworkError");
  assert.match(fault.message, /ECONNREFUSED/);
  assert.deepEqual(made, [[["weblocks.push"]]]);
});

test("a proxy that finds no server isn't taken for one that is polled: the next try has tokens again", async (t) => {
  const server = await startRelayed(t, { fences: new Fences(1) });
  const locks = await connectTo(t, server, { fences: true });
  for (const status of [500, 502, 503, 504]) {
    server.statuses = [status];
    const restored = new Promise((resolve) => locks.addEventListener("restored", resolve, { once: true }));
    server.closeAll(1001, "going away");
    await restored;
    assert.notEqual(await locks.request("db", (lock) => lock.fence), null, `after ${status}`);
  }
  assert.equal(server.offers.length, 9);
  assert.ok(server.offers.every(({ protocols }) => protocols.length === 2));
  server.statuses = [502];
  const fault = await assertRejects(connectTo(t, server), "NetworkError");
  assert.match(fault.message, /502$/);
});

test("nothing is polled where pushes are spoken, but for the heartbeat", async (t) => {
  const server = await startRelayed(t);
  const [a, b] = [await connectTo(t, server, { poll: 1 }), await connectTo(t, server, { poll: 1 })];
  const holding = await hold(a, "db");
  const pending = b.request("db", () => "told");
  await until(async () => (await a.query()).pending.length === 1);
  await new Promise((resolve) => setTimeout(resolve, 100));
  holding.release();
  assert.equal(await pending, "told");
  assert.ok(!server.ops.includes("poll"));
});

test("nothing is polled while nothing is pending, but for the heartbeat", async (t) => {
  const server = await startRelayed(t, { selects: false });
  const [a, b] = [await connectTo(t, server, { poll: 1 }), await connectTo(t, server, { poll: 1 })];
  const polls = () => server.ops.filter((op) => op === "poll").length;
  const holding = await hold(a, "db");
  await new Promise((resolve) => setTimeout(resolve, 100));
  assert.ok(polls() <= 1, `${polls()} polls while nothing was pending`);
  const pending = b.request("db", () => "told");
  await until(() => polls() > 10);
  holding.release();
  assert.equal(await pending, "told");
  const before = polls();
  await new Promise((resolve) => setTimeout(resolve, 100));
  assert.ok(polls() <= before + 1, `${polls() - before} polls after the last request`);
});

test("a token is offered as a subprotocol beside weblocks.push", async (t) => {
  const server = await startRelayed(t, { token: "se.cr_et-1" });
  const locks = await connectTo(t, server, { token: "se.cr_et-1" });
  assert.equal(await locks.request("db", () => 1), 1);
  assert.deepEqual(server.offers[0].protocols, ["weblocks.push", "weblocks.bearer.se.cr_et-1"]);
  assert.equal(server.offers.length, 1);
});

test("a server that is polled gets the token as a header, by the second handshake", async (t) => {
  const server = await startRelayed(t, { token: "secret", selects: false });
  const locks = await connectTo(t, server, { token: "secret" });
  assert.equal(await locks.request("db", () => 1), 1);
  assert.deepEqual(server.offers.map(({ authorization }) => authorization), [undefined, "Bearer secret"]);
});

test("a wrong token is a NetworkError", async (t) => {
  const server = await startRelayed(t, { token: "secret" });
  const fault = await assertRejects(connectTo(t, server, { token: "wrong" }), "NetworkError");
  assert.match(fault.message, /401/);
  await assertRejects(connectTo(t, server), "NetworkError");
});

test("where there is no server, connect rejects with NetworkError", async (t) => {
  const server = await startPolled(t);
  await server.stop();
  await assertRejects(connectTo(t, server), "NetworkError");
});

test("where sockets don't say why a handshake failed, as a browser's, connect says so", async () => {
  class Silent {
    url = "ws://127.0.0.1:9";

    constructor() {
      setTimeout(() => this.onerror({}));
    }

    close() {}
  }
  const fault = await assertRejects(
    connect({ url: "ws://127.0.0.1:9", origin: "https://a.test", WebSocket: Silent }), "NetworkError",
  );
  assert.match(fault.message, /a page isn't told why/);
});

test("where the system has but a code, as for several addresses of a name, connect says that", async () => {
  let made = 0;
  class Refused {
    constructor() {
      made += 1;
      const error = Object.assign(new AggregateError([]), { code: "ECONNREFUSED" });
      setTimeout(() => this.onerror({ message: error.message, error }));
    }

    close() {}
  }
  const fault = await assertRejects(
    connect({ url: "ws://localhost:9", origin: "https://a.test", WebSocket: Refused }), "NetworkError",
  );
  assert.match(fault.message, /: ECONNREFUSED$/);
  assert.equal(made, 1);
});

test("a server may close a connection for its origin (1008) or for want of room (1013)", async (t) => {
  const server = await startRelayed(t);
  server.closeCode = 1008;
  await assertRejects(connectTo(t, server), "SecurityError");
  server.closeCode = 1013;
  await assertRejects(connectTo(t, server), "QuotaExceededError");
});

test("an option that is wrong is a TypeError", async () => {
  const good = { url: "ws://127.0.0.1:9", origin: "https://a.test" };
  const wrong = [
    { url: undefined }, { url: "http://127.0.0.1/" }, { url: "no url" }, { url: "unix:" },
    { url: "ws://127.0.0.1/#part" },
    { origin: undefined }, { origin: "a".repeat(40_000) },
    { kind: "page" }, { kind: null }, { bucket: "" }, { bucket: "Inbox" }, { bucket: "-a" }, { bucket: "a".repeat(65) },
    { token: "" }, { token: "two words" }, { token: "t\u00e4g" }, { heartbeat: 0 }, { heartbeat: "10" },
    { heartbeat: Infinity }, { heartbeat: 2 ** 31 }, { poll: -1 }, { poll: NaN }, { reconnect: 1 }, { fences: "yes" },
    { WebSocket: {} },
  ];
  for (const options of wrong) {
    await assert.rejects(connect({ ...good, ...options }), TypeError, JSON.stringify(options));
  }
  for (const options of [undefined, null, 5]) await assert.rejects(connect(options), TypeError);
});

test("a port stands in the place of a url, and takes no token", async () => {
  const { port1: port } = new MessageChannel();
  const good = { port, origin: "https://a.test" };
  const wrong = [
    { port: undefined }, { port: null }, { port: 8080 }, { port: {} }, { port: "/worker.js" },
    { url: "ws://127.0.0.1:9" }, { token: "se.cr_et-1" }, { origin: undefined }, { heartbeat: 0 },
  ];
  for (const options of wrong) {
    await assert.rejects(connect({ ...good, ...options }), TypeError, JSON.stringify(options));
  }
  port.close();
});

test("an origin that the service can't read is a TypeError", async (t) => {
  const server = await startPolled(t);
  await assert.rejects(connectTo(t, server, { origin: "a.test" }), TypeError);
});

test("a server that breaks the protocol is lost", async (t) => {
  for (const text of ["no json", "5", "{}", '{"id":9,"notices":[],"ok":{}}', '{"id":1,"notices":[]}']) {
    const server = await startRelayed(t);
    server.answer = text;
    await assertRejects(connectTo(t, server), "NetworkError");
  }
});

test("without an option the sockets are those of globalThis.WebSocket, else of the package ws", async (t) => {
  const server = await startPushing(t);
  const program = `
    import { connect } from ${JSON.stringify(PACKAGE)};
    let made = 0;
    if (process.argv[1] === "own") {
      const { WebSocket } = await import(${JSON.stringify(new URL("support/sockets.js", import.meta.url).href)});
      globalThis.WebSocket = class extends WebSocket { constructor(...given) { super(...given); made += 1; } };
    } else {
      delete globalThis.WebSocket;
    }
    const locks = await connect({ url: ${JSON.stringify(server.url)}, origin: "https://a.test" });
    console.log(made, await locks.request("db", () => "granted"));
    await locks.close();
  `;
  const env = { ...process.env, NODE_PATH: `/usr/share/nodejs:${process.env.NODE_PATH ?? ""}` };
  const start = (word) => run(process.execPath, ["--input-type=module", "-e", program, word], { env });
  assert.equal((await start("own")).stdout, "1 granted\n");
  assert.equal((await start("package")).stdout, "0 granted\n");
});

test("where there is no class of sockets, connect says what to do", async () => {
  const program = `
    import { connect } from ${JSON.stringify(PACKAGE)};
    delete globalThis.WebSocket;
    await connect({ url: "ws://127.0.0.1:9", origin: "https://a.test" }).catch((fault) => console.log(String(fault)));
  `;
  const env = { PATH: process.env.PATH };
  const { stdout } = await run(process.execPath, ["--input-type=module", "-e", program], { env });
  assert.match(stdout, /^TypeError: .*install the package ws/);
});
