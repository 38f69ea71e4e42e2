/** Fencing tokens: which lock has which, where there are none, and what is no token. */

import assert from "node:assert/strict";
import { readFile } from "node:fs/promises";
import { test } from "node:test";
import { install } from "../polyfill.js";
import { Lock } from "../weblocks.js";
import { Fences, fenceOf } from "./support/fences.js";
import { assertRejects, hold, untilPending } from "./support/holding.js";
import { connectTo, startPolled, startPushing, startRelayed } from "./support/servers.js";
import { WebSocket } from "./support/sockets.js";

const EPOCH = 0x4d2;
const README = new URL("../README.md", import.meta.url);

/** The token of this epoch. */
const fence = (count) => fenceOf(EPOCH, count);

/** A server with an epoch: its relay, what adds the tokens, and so many agents that ask for them. */
async function startFenced(t, count, options = {}) {
  const fences = new Fences(EPOCH);
  const server = await startRelayed(t, { fences });
  const agents = [];
  for (let left = count; left > 0; left -= 1) agents.push(await connectTo(t, server, { fences: true, ...options }));
  return { fences, server, agents };
}

/** The token of a lock that is given back at once. */
const fenceIn = (locks, name, options = {}) => locks.request(name, options, (lock) => lock.fence);

/** A promise of the next event. */
const next = (locks, type) => new Promise((resolve) => locks.addEventListener(type, resolve, { once: true }));

test("weblocks.fence is offered before weblocks.push where tokens are asked for, and else not", async (t) => {
  const server = await startRelayed(t);
  await connectTo(t, server, { fences: true });
  await connectTo(t, server, { fences: true, token: "se.cr_et-1" });
  await connectTo(t, server, { fences: false });
  await connectTo(t, server);
  assert.deepEqual(server.offers.map(({ protocols }) => protocols), [
    ["weblocks.fence", "weblocks.push"],
    ["weblocks.fence", "weblocks.push", "weblocks.bearer.se.cr_et-1"],
    ["weblocks.push"],
    ["weblocks.push"],
  ]);
});

test("a lock that is free has the token that the request's own reply tells", async (t) => {
  const { fences, agents: [locks] } = await startFenced(t, 1);
  for (const options of [{}, { mode: "shared" }, { ifAvailable: true }, { steal: true }]) {
    const count = fences.told.length + 1;
    assert.equal(await fenceIn(locks, "db", options), fence(count));
    assert.equal(typeof fences.told.at(-1).id, "number");
  }
  assert.equal(fence(1), "00000000000004d2-0000000000000001");
});

test("a lock that was waited for has the token that a push tells", async (t) => {
  const { fences, agents: [a, b] } = await startFenced(t, 2);
  const holding = await hold(a, "db");
  const waiting = fenceIn(b, "db");
  await untilPending(a, 1);
  // No reply is owed to it then, by which it could be told.
  await b.query();
  holding.release();
  assert.equal(await waiting, fence(2));
  assert.deepEqual(fences.told.map(({ id }) => id === null), [false, true]);
});

test("nothing is polled where weblocks.fence is spoken", async (t) => {
  const { server, agents: [a, b] } = await startFenced(t, 2, { poll: 1 });
  const holding = await hold(a, "db");
  const waiting = fenceIn(b, "db");
  await untilPending(a, 1);
  await new Promise((resolve) => setTimeout(resolve, 100));
  holding.release();
  await waiting;
  assert.ok(!server.ops.includes("poll"));
});

test("of several grants in one message each lock has its own token", async (t) => {
  const { fences, agents: [a, b] } = await startFenced(t, 2);
  // Whatever the order in which the tokens are listed: they are told by number.
  const inOrder = fences.member;
  fences.member = (granted) => inOrder(granted).reverse();
  const holding = await hold(a, "db");
  const waiting = ["one", "two", "three"].map(() => fenceIn(b, "db", { mode: "shared" }));
  await untilPending(a, 3);
  holding.release();
  assert.deepEqual(await Promise.all(waiting), [fence(2), fence(3), fence(4)]);
  assert.equal(fences.told.at(-1).notices.length, 3);
});

test("a name that is stolen and granted again has a greater token each time, and each lock keeps its own",
  async (t) => {
    const { agents: [a, b] } = await startFenced(t, 2);
    const first = await hold(a, "db");
    const second = await hold(b, "db", { steal: true });
    await assertRejects(first.promise, "AbortError");
    const waiting = hold(a, "db");
    await untilPending(b, 1);
    second.release();
    const third = await waiting;
    const tokens = [first, second, third].map(({ lock }) => lock.fence);
    assert.deepEqual(tokens, [fence(1), fence(2), fence(3)]);
    assert.deepEqual([...tokens].sort(), tokens);
    third.release();
  });

test("a server without an epoch, which selects weblocks.push, gives none", async (t) => {
  const server = await startRelayed(t);
  const [a, b] = [await connectTo(t, server, { fences: true }), await connectTo(t, server, { fences: true })];
  const holding = await hold(a, "db");
  assert.equal(holding.lock.fence, null);
  const waiting = fenceIn(b, "db");
  await untilPending(a, 1);
  holding.release();
  assert.equal(await waiting, null);
  assert.ok(!server.ops.includes("poll"));
});

test("a server that is polled gives none", async (t) => {
  const locks = await connectTo(t, await startPolled(t), { fences: true });
  assert.equal(await fenceIn(locks, "db"), null);
});

test("whoever didn't ask for tokens has none, at a server with an epoch too", async (t) => {
  const { server } = await startFenced(t, 0);
  assert.equal(await fenceIn(await connectTo(t, server), "db"), null);
});

test("a member fences that wasn't asked for is passed over, as any that isn't known", async (t) => {
  const server = await startRelayed(t);
  const locks = await connectTo(t, server, { reconnect: false });
  server.answer = '{"fences":5,"id":3,"notices":[{"phase":"granted","request":1}],"ok":{"request":1}}';
  assert.equal((await hold(locks, "db")).lock.fence, null);
  server.answer = null;
});

test("after a reconnection to a server without an epoch locks have none, and with a later epoch greater ones",
  async (t) => {
    const { server, agents: [locks] } = await startFenced(t, 1);
    assert.equal(await fenceIn(locks, "db"), fence(1));
    for (const [fences, expected] of [[null, null], [new Fences(EPOCH + 1), fenceOf(EPOCH + 1, 1)]]) {
      const restored = next(locks, "restored");
      server.fences = fences;
      server.closeAll(1001, "going away");
      await restored;
      assert.equal(await fenceIn(locks, "db"), expected);
    }
    assert.ok(fenceOf(EPOCH + 1, 1) > fence(0xffff));
  });

test("a lock that waited over a loss has the token of its grant at the next server", async (t) => {
  const { server, agents: [locks] } = await startFenced(t, 1);
  const other = await connectTo(t, server);
  const holding = await hold(other, "db");
  const waiting = fenceIn(locks, "db");
  await untilPending(other, 1);
  server.fences = new Fences(EPOCH + 1);
  server.closeAll(1001, "going away");
  await assertRejects(holding.promise, "NetworkError");
  assert.equal(await waiting, fenceOf(EPOCH + 1, 1));
});

const token = fence(1);
const MALFORMED = [
  null, {}, "", token,
  [token], [null], [{ request: 1 }], [{ fence: token }],
  [{ fence: token, request: "1" }], [{ fence: token, request: 1.5 }], [{ fence: 1, request: 1 }],
  ...["", token.toUpperCase(), token.slice(1), `${token}0`, `${token}\n`, token.replace("-", ""), ` ${token}`]
    .map((text) => [{ fence: text, request: 1 }]),
];

test("a malformed member is a fault of the protocol: the connection is lost, and nothing is granted", async (t) => {
  for (const member of MALFORMED) {
    const { fences, agents: [locks] } = await startFenced(t, 1, { reconnect: false });
    fences.member = () => member;
    const granted = locks.request("db", () => assert.fail(`its callback was called: ${JSON.stringify(member)}`));
    const fault = await assertRejects(granted, "NetworkError");
    assert.match(fault.message, /^The server sent a .*fence/, JSON.stringify(member));
  }
});

test("a grant that its message has no token for has none, and a token of what isn't granted is nobody's", async (t) => {
  const { fences, agents: [locks] } = await startFenced(t, 1);
  for (const member of [undefined, [], [{ fence: token, request: 4711 }]]) {
    fences.member = () => member;
    assert.equal(await fenceIn(locks, "db"), null);
  }
});

test("a lock's token is no member that the standard's locks show, and can't be written", async (t) => {
  const { agents: [locks] } = await startFenced(t, 1);
  await locks.request("db", (lock) => {
    const members = [];
    for (const member in lock) members.push(member);
    assert.deepEqual(members.sort(), ["mode", "name"]);
    assert.deepEqual(Reflect.ownKeys(lock), []);
    assert.equal(Reflect.set(lock, "fence", "another"), false);
    assert.equal(lock.fence, fence(1));
    assert.throws(() => Object.getOwnPropertyDescriptor(Lock.prototype, "fence").get.call({}), TypeError);
  });
});

test("the polyfill's locks have tokens where they were asked for", async (t) => {
  const { server } = await startFenced(t, 0);
  for (const [options, expected] of [[{ fences: true }, fence(1)], [{}, null]]) {
    const locks = install({ url: server.url, origin: "https://a.test", WebSocket, ...options });
    t.after(() => locks.close());
    assert.equal(await navigator.locks.request("db", (lock) => lock.fence), expected);
  }
});

/** The class that the document shows, of a resource that checks tokens. */
async function shownResource() {
  const [, block] = (await readFile(README, "utf8")).match(/^```js\n(class Resource \{.*?)^```$/ms);
  return new Function(`${block}; return Resource;`)();
}

test("the resource that README shows takes what is newest, and of readers what is no older than a writer", async () => {
  const resource = new (await shownResource())();
  const steps = [
    ["exclusive", null, false], ["shared", null, false],
    ["shared", 1, true], ["exclusive", 2, true], ["exclusive", 2, true], ["exclusive", 1, false], ["shared", 1, false],
    ["shared", 4, true], ["shared", 3, true], ["exclusive", 3, false], ["exclusive", 4, true], ["shared", 3, false],
    ["exclusive", 5, true], ["exclusive", 4, false],
  ];
  for (const [mode, count, expected] of steps) {
    const lock = { mode, fence: count === null ? null : fence(count) };
    assert.equal(resource.admits(lock), expected, `${mode} ${count}`);
  }
});

test("a daemon's tokens grow, by a reply, a push and a theft, and with the next epoch", async (t) => {
  const told = [];
  for (const epoch of ["1234", "1235"]) {
    const server = await startPushing(t, { words: ["--epoch", epoch] });
    const first = await connectTo(t, server, { fences: true });
    const second = await connectTo(t, server, { fences: true });
    const holding = await hold(first, "db");
    const waiting = hold(second, "db");
    await untilPending(first, 1);
    told.push(holding.lock.fence);
    holding.release();
    told.push((await waiting).lock.fence);
    told.push(await fenceIn(first, "db", { steal: true }));
  }
  assert.equal(told[0], "00000000000004d2-0000000000000001");
  assert.deepEqual(told, [...new Set(told)].sort());
});

test("a daemon without an epoch gives none", async (t) => {
  const locks = await connectTo(t, await startPushing(t), { fences: true });
  assert.equal(await fenceIn(locks, "db"), null);
});
