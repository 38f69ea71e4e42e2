/** The service of ports, by the clients' protocol and through the client itself. */

import assert from "node:assert/strict";
import { test } from "node:test";
import { assertFree, assertRejects, hold, until, untilPending, watch } from "../../js/test/support/holding.js";
import { MESSAGE_BYTES } from "../src/line.js";
import { ENGINES } from "./support/engines.js";
import { RawPort, connectTo, doorTo, serve } from "./support/serving.js";

const OPEN = '{"id":1,"op":"open","url":"https://a.test/"}';
const REQUEST = '{"id":2,"op":"request","name":"db"}';
const GRANTED = '"notices":[{"phase":"granted","request":1}]';

/** An engine whose lines are written down, and which fails when it is told to. */
function watchEngine(engine) {
  const watched = { lines: [], fails: false };
  watched.answer = (line) => {
    if (watched.fails) throw new Error("the engine has no memory left");
    watched.lines.push(line);
    return engine.answer(line);
  };
  return watched;
}

for (const [name, make] of Object.entries(ENGINES)) {
  const testHere = (sentence, run) => test(`${sentence} (${name})`, async (t) => run(t, await make(t)));

  testHere("a grant is pushed to who waits, behind no message of his", async (t, engine) => {
    const door = doorTo(t, serve(engine));
    const [a, b] = [new RawPort(t, door), new RawPort(t, door)];
    await a.ask(OPEN);
    await b.ask(OPEN);
    assert.equal(await a.ask(REQUEST), `{"id":2,${GRANTED},"ok":{"request":1}}`);
    assert.equal(await b.ask(REQUEST), '{"id":2,"notices":[],"ok":{"request":2}}');
    const push = b.next();
    const released = await a.ask('{"id":3,"op":"release","request":1}');
    assert.equal(released, '{"id":3,"notices":[],"ok":{"release":"released"}}');
    assert.equal(await push, '{"id":null,"notices":[{"phase":"granted","request":2}],"ok":{}}');
    assert.equal(await b.ask('{"id":3,"op":"poll"}'), '{"id":3,"notices":[],"ok":{}}');
  });

  testHere("a theft is pushed to the holder, and what stands behind an aborted request to its agent",
    async (t, engine) => {
      const door = doorTo(t, serve(engine));
      const [a, b, c] = [await connectTo(t, door), await connectTo(t, door), await connectTo(t, door)];
      const first = await hold(a, "db", { mode: "shared" });
      const abort = new AbortController();
      const waiting = watch(b.request("db", { signal: abort.signal }, () => "never"));
      await untilPending(a, 1);
      const behind = hold(c, "db", { mode: "shared" });
      await untilPending(a, 2);
      abort.abort();
      await assertRejects(waiting.settled.then(() => Promise.reject(waiting.reason)), "AbortError");
      const second = await behind;
      const stolen = [watch(first.promise), watch(second.promise)];
      const signals = [a.lostSignal(first.lock), c.lostSignal(second.lock)];
      await b.request("db", { steal: true }, () => {});
      await until(() => signals.every((signal) => signal.aborted));
      first.release();
      second.release();
      await Promise.all(stolen.map((it) => it.settled));
      assert.deepEqual(stolen.map(({ reason }) => reason.name), ["AbortError", "AbortError"]);
      await assertFree(b);
    });

  testHere("an agent's locks pass on when it closes, when its port says so, and with its port", async (t, engine) => {
    const service = serve(engine);
    const door = doorTo(t, service);
    const waiting = await connectTo(t, door);
    const ways = {
      closes: async (locks) => locks.close(),
      says: (raw) => raw.post({ type: "close" }),
      ends: (raw) => raw.vanish(),
    };
    for (const [way, end] of Object.entries(ways)) {
      const raw = new RawPort(t, door);
      const holder = way === "closes" ? await connectTo(t, door) : raw;
      if (holder === raw) {
        await raw.ask(OPEN);
        await raw.ask(REQUEST);
      } else {
        const { promise } = await hold(holder, "db");
        promise.catch(() => {});
      }
      const granted = hold(waiting, "db");
      await untilPending(waiting, 1);
      await end(holder);
      const { release, promise } = await granted;
      release();
      await promise;
    }
    await assertFree(waiting);
  });

  testHere("only agents with a live request are looked at, and only after what may touch them", async (t, engine) => {
    const watched = watchEngine(engine);
    const door = doorTo(t, serve(watched));
    const [holder, waiting, idle] = Array.from({ length: 3 }, () => new RawPort(t, door));
    for (const it of [holder, waiting, idle]) await it.ask(OPEN);
    await holder.ask(REQUEST);
    await waiting.ask(REQUEST);
    for (const op of ["signal", "query", "poll"]) await idle.ask(`{"id":3,"op":"${op}"}`);
    await idle.ask('{"id":3,"op":"request","name":"other"}');
    await idle.ask('{"id":3,"op":"release","request":9}');
    const polls = () => watched.lines.filter((it) => it.startsWith('{"id":0,"op":"poll"'));
    // (a release that releases nothing is looked behind too: the holder and the waiting one, for it)
    assert.equal(polls().length, 2);
    const push = waiting.next();
    await holder.ask('{"id":3,"op":"release","request":1}');
    await push;
    assert.equal(polls().length, 4);
    await holder.ask('{"id":4,"op":"close"}');
    assert.equal(polls().length, 6);
  });

  testHere("a message that is too long ends its connection, and no other", async (t, engine) => {
    const door = doorTo(t, serve(engine));
    const [a, b] = [new RawPort(t, door), new RawPort(t, door)];
    await a.ask(OPEN);
    await b.ask(OPEN);
    const long = `{"id":2,"op":"poll","x":"${"x".repeat(MESSAGE_BYTES)}"}`;
    a.post(long);
    await until(() => a.objects.length === 2);
    assert.deepEqual(a.objects.map(({ type, code }) => [type, code]), [["open", undefined], ["close", 1009]]);
    const longest = long.replace("x".repeat(long.length - MESSAGE_BYTES), "");
    assert.equal(longest.length, MESSAGE_BYTES);
    assert.equal(await b.ask(longest), '{"id":2,"notices":[],"ok":{}}');
  });

  testHere("where an engine fails all connections end, and who connects anew finds a new engine", async (t, engine) => {
    const failing = watchEngine(engine);
    const engines = [failing, await make(t)];
    const { Service } = await import("../service.js");
    const service = new Service(() => engines.shift());
    const door = doorTo(t, service);
    const a = await connectTo(t, () => doorTo(t, service), { reconnect: false });
    const b = await connectTo(t, () => doorTo(t, service));
    const restored = new Promise((resolve) => b.addEventListener("restored", resolve));
    const held = watch((await hold(b, "db")).promise);
    failing.fails = true;
    const asked = watch(a.query());
    await Promise.all([asked.settled, held.settled, restored]);
    assert.deepEqual([asked.reason.name, held.reason.name], ["NetworkError", "NetworkError"]);
    assert.equal((await a.closed).message.includes("the engine has no memory left"), true);
    const { release, promise } = await hold(b, "db");
    release();
    await promise;
    await assertFree(b);
    door.close();
  });
}

test("an engine that can't be made is a NetworkError of connect, which says why", async (t) => {
  const { Service } = await import("../service.js");
  const service = new Service(() => {
    throw new Error("the module can't be had");
  });
  const door = doorTo(t, service);
  for (const made of [() => doorTo(t, service), door, door]) {
    const fault = await assertRejects(connectTo(t, made), "NetworkError");
    assert.match(fault.message, /: the module can't be had$/);
  }
});
