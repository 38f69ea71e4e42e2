/** What is to be sent, in order, over one connection or several. */

import assert from "node:assert/strict";
import { test } from "node:test";
import { setImmediate as turn } from "node:timers/promises";
import { Outbox } from "../src/outbox.js";
import { Queue } from "../src/queue.js";
import { SIGNALS_OF_AGENT, SignalSupply } from "../src/signals.js";

const no = () => false;
const none = () => null;

/** An agent that answers when it is told to. */
class FakeAgent {
  #unanswered = [];

  constructor(name, sent) {
    this.name = name;
    this.sent = sent;
    this.isClosed = false;
  }

  ask(message, answered) {
    this.sent.push(`${this.name}: ${message}`);
    this.#unanswered.push(answered);
  }

  /** Answers the oldest message. */
  answer() {
    this.#unanswered.shift()({ ok: {} });
  }
}

function sending(message, agent = null) {
  return { agent, isCancelled: false, compose: () => message, answered: () => {} };
}

test("messages of one agent go out without waiting for replies", () => {
  const sent = [];
  const outbox = new Outbox(no, no, none);
  outbox.push(sending("early"));
  assert.deepEqual(sent, [], "there is no agent yet");
  outbox.current = new FakeAgent("a", sent);
  outbox.push(sending("one"));
  outbox.push(sending("two"));
  assert.deepEqual(sent, ["a: early", "a: one", "a: two"]);
});

test("a message to another agent waits until all before it are answered, and those behind it wait too", () => {
  const sent = [];
  const outbox = new Outbox(no, no, none);
  const [a, b] = [new FakeAgent("a", sent), new FakeAgent("b", sent)];
  outbox.current = a;
  outbox.push(sending("one"));
  outbox.push(sending("two"));
  outbox.current = b;
  outbox.push(sending("three"));
  outbox.push(sending("release", a));
  outbox.push(sending("four"));
  assert.deepEqual(sent, ["a: one", "a: two"]);
  a.answer();
  assert.deepEqual(sent, ["a: one", "a: two"]);
  a.answer();
  assert.deepEqual(sent.slice(2), ["b: three"]);
  b.answer();
  assert.deepEqual(sent.slice(3), ["a: release"]);
  a.answer();
  assert.deepEqual(sent.slice(4), ["b: four"]);
});

test("what must wait holds up what is behind it, and what is cancelled doesn't", () => {
  const sent = [];
  const outbox = new Outbox(no, no, none);
  outbox.current = new FakeAgent("a", sent);
  let message = null;
  const waiting = { ...sending(""), compose: () => message };
  const cancelled = { ...sending("cancelled"), isCancelled: true };
  outbox.push(waiting);
  outbox.push(cancelled);
  outbox.push(sending("behind"));
  assert.deepEqual(sent, []);
  message = "waited";
  outbox.flush();
  assert.deepEqual(sent, ["a: waited", "a: behind"]);
});

test("what has an agent passes what must wait for nobody knows how long, and else nothing", () => {
  const sent = [];
  let isStuck = false;
  const outbox = new Outbox(no, () => isStuck, none);
  const agent = new FakeAgent("a", sent);
  outbox.current = agent;
  let message = null;
  outbox.push({ ...sending(""), compose: () => message });
  outbox.push(sending("first", agent));
  outbox.push(sending("question"));
  outbox.push(sending("second", agent));
  assert.deepEqual(sent, [], "a reply is on its way by which it can be sent");
  isStuck = true;
  outbox.push(sending("third", agent));
  assert.deepEqual(sent, ["a: first", "a: second", "a: third"]);
  isStuck = false;
  outbox.push(sending("fourth", agent));
  message = "waited";
  outbox.flush();
  assert.deepEqual(sent.slice(3), ["a: waited", "a: question", "a: fourth"]);
});

test("what passes to another agent goes out once all before it are answered, and so does what it passed", () => {
  const sent = [];
  const outbox = new Outbox(no, () => true, none);
  const [a, b] = [new FakeAgent("a", sent), new FakeAgent("b", sent)];
  outbox.current = b;
  outbox.push(sending("one"));
  let message = null;
  outbox.push({ ...sending(""), compose: () => message });
  outbox.push(sending("release", a));
  assert.deepEqual(sent, ["b: one"]);
  b.answer();
  assert.deepEqual(sent.slice(1), ["a: release"]);
  message = "waited";
  outbox.flush();
  assert.deepEqual(sent.slice(1), ["a: release"]);
  a.answer();
  assert.deepEqual(sent.slice(2), ["b: waited"]);
});

/** A request of a name, which can be sent where `signals` has one for it. */
function requestOf(name, signals, { isPlain = true } = {}) {
  const request = sending(name);
  const compose = () => (signals.length > 0 ? `${name} ${signals.pop()}` : null);
  const putOff = () => {
    request.isCancelled = !isPlain;
    return name;
  };
  return Object.assign(request, { compose, putOff, isBehind: (names) => names.has(name) });
}

const READY = { length: 1, pop: () => "plain" };

test("what waits in vain is put off: requests of its name stay behind it, and all else passes", async () => {
  const sent = [];
  let fault = null;
  const outbox = new Outbox(no, () => true, () => fault);
  outbox.current = new FakeAgent("a", sent);
  const signals = [];
  const impatient = requestOf("x", READY, { isPlain: false });
  const first = requestOf("x", signals);
  const activity = { ...sending("inactive"), isBehind: () => true, putOff: () => null };
  const query = { ...sending("query"), isBehind: no };
  for (const it of [first, requestOf("x", READY), impatient, activity, requestOf("y", signals), query]) outbox.push(it);
  assert.deepEqual(sent, [], "no try has failed");
  fault = new Error("none");
  outbox.lookAgain();
  assert.deepEqual(sent.splice(0), ["a: query"]);
  assert.equal(impatient.isCancelled, true);
  for (const name of ["x", "y", "z"]) outbox.push(requestOf(name, READY));
  assert.deepEqual(sent.splice(0), ["a: z plain"]);
  first.isCancelled = true;
  outbox.lookAgain();
  await turn();
  assert.deepEqual(sent.splice(0), ["a: x plain", "a: inactive", "a: x plain"]);
  signals.push("signal");
  outbox.lookAgain();
  outbox.push(requestOf("y", READY));
  assert.deepEqual(sent, ["a: y signal", "a: y plain", "a: y plain"], "before what is pushed behind");
});

test("what was put off goes with the next agent in its order, and with what was pushed behind it", () => {
  const sent = [];
  const signals = [];
  const [a, b] = [new FakeAgent("a", sent), new FakeAgent("b", sent)];
  let fault = new Error("none");
  let hasNext = false;
  const unstick = () => {
    if (!hasNext) return false;
    signals.push("one", "two");
    outbox.current = b;
    hasNext = false;
    return true;
  };
  const outbox = new Outbox(unstick, no, () => fault);
  outbox.current = a;
  for (const it of [requestOf("x", signals), requestOf("x", READY), requestOf("y", READY)]) outbox.push(it);
  assert.deepEqual(sent.splice(0), ["a: y plain"]);
  hasNext = true;
  fault = null;
  outbox.push(requestOf("x", signals));
  assert.deepEqual(sent, [], "what went before isn't answered");
  a.answer();
  assert.deepEqual(sent, ["b: x two", "b: x plain", "b: x one"]);
});

test("what was forgotten is neither sent nor waited for", () => {
  const sent = [];
  const outbox = new Outbox(no, no, none);
  const [a, b] = [new FakeAgent("a", sent), new FakeAgent("b", sent)];
  outbox.current = a;
  outbox.push(sending("one"));
  outbox.push(sending("lost", b));
  outbox.reset();
  outbox.current = b;
  outbox.push(sending("two"));
  assert.deepEqual(sent, ["a: one", "b: two"]);
});

test("what is for an agent that was closed is dropped, and holds nothing up", () => {
  const sent = [];
  const outbox = new Outbox(no, no, none);
  const [a, b] = [new FakeAgent("a", sent), new FakeAgent("b", sent)];
  outbox.current = b;
  outbox.push(sending("one"));
  outbox.push(sending("release", a));
  outbox.push(sending("two"));
  assert.deepEqual(sent, ["b: one"]);
  a.isClosed = true;
  b.answer();
  assert.deepEqual(sent, ["b: one", "b: two"]);
});

test("a queue gives back what it was given, in order, whatever its length", () => {
  const queue = new Queue();
  const taken = [];
  for (let number = 0; number < 1000; number += 1) {
    queue.push(2 * number);
    queue.push(2 * number + 1);
    assert.equal(queue.peek(), number);
    taken.push(queue.shift());
    assert.equal(queue.size, number + 1);
  }
  while (queue.size > 0) taken.push(queue.shift());
  assert.deepEqual(taken, Array.from({ length: 2000 }, (_, number) => number));
  assert.equal(queue.shift(), undefined);
  assert.equal(queue.peek(), undefined);
});

test("an agent's supply asks for no more signals than it may have", () => {
  const asked = [];
  const supply = new SignalSupply((answered) => asked.push(answered));
  supply.provide(5000, () => {});
  assert.equal(asked.length, SIGNALS_OF_AGENT);
  asked.forEach((answered, index) => answered(index + 1));
  assert.equal(supply.left, SIGNALS_OF_AGENT);
  const loans = Array.from({ length: SIGNALS_OF_AGENT }, () => supply.lend(new AbortController().signal));
  assert.equal(new Set(loans.map(({ number }) => number)).size, SIGNALS_OF_AGENT);
  assert.equal(supply.lend(new AbortController().signal), null);
  assert.equal(supply.left, 0);
  supply.provide(1, () => {});
  assert.equal(asked.length, SIGNALS_OF_AGENT);
  loans[0].isAborted = true;
  supply.takeBack(loans[0]);
  assert.equal(supply.left, 0, "an aborted signal is used up");
  supply.takeBack(loans[1]);
  assert.equal(supply.lend(new AbortController().signal).number, loans[1].number);
});

test("a signal is lent once, to all requests that have it, until the last returns it", () => {
  const supply = new SignalSupply((answered) => answered(7));
  supply.provide(1, () => {});
  const { signal } = new AbortController();
  const [first, second] = [supply.lend(signal), supply.lend(signal)];
  assert.equal(first, second);
  supply.takeBack(first);
  assert.equal(supply.left, SIGNALS_OF_AGENT - 1);
  supply.takeBack(second);
  assert.equal(supply.left, SIGNALS_OF_AGENT);
});
