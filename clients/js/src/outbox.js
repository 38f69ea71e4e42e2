/**
 * What is to be sent, in the order in which it was asked for, whichever connection it goes over.
 *
 * A sending has `agent` (or null: whichever serves new requests), `isCancelled`, `compose(agent)`, its message or null
 * where it must wait, and `answered(reply)`. A message to another agent than the one before goes out once all before
 * it are answered: else the service could take it first.
 *
 * What is for an agent that was closed meanwhile is dropped: all that it had is free, and it would never be answered.
 *
 * What must wait holds up all behind it. But where nobody knows for how long, what has an agent passes it, a release or
 * an abort, which has its message always: the request that waits may be waiting for what that very release gives back.
 *
 * Where a try has failed for what it waits for, it is put off, and all passes it but what its order matters to. So a
 * sending without an agent has `isBehind(names)`, whether it must stay behind requests of these names that were put
 * off, and `putOff(fault)`, which gives its own name, null where it is no request, or cancels it.
 */

import { Queue } from "./queue.js";
import { runAsTask } from "./tasks.js";

export class Outbox {
  /** What has an agent, and what hasn't, each with its place in the order of both. */
  #bound = new Queue();
  #unbound = new Queue();
  #places = 0;
  /** What was put off, in its order, the names of its requests, and whether it may be otherwise by now. */
  #putOff = new Queue();
  #namesPutOff = new Set();
  #isStale = false;
  #current = null;
  #last = null;
  #unanswered = 0;
  #unstick;
  #isStuck;
  #shortage;

  /**
   * @param {() => boolean} unstick called where a sending must wait; whether it is to be tried again at once
   * @param {() => boolean} isStuck called where it isn't; whether nobody knows when it will be
   * @param {() => Error | null} shortage why the last try failed for what it waits for, if one did
   */
  constructor(unstick, isStuck, shortage) {
    this.#unstick = unstick;
    this.#isStuck = isStuck;
    this.#shortage = shortage;
  }

  /** The agent that serves new requests, or null while there is none. */
  set current(agent) {
    this.#current = agent;
    this.#isStale = this.#putOff.size > 0;
  }

  /** Adds a sending, and sends what can be. */
  push(sending) {
    const queue = sending.agent === null ? this.#unbound : this.#bound;
    queue.push({ sending, place: this.#places });
    this.#places += 1;
    this.flush();
  }

  /** Sends what can be. */
  flush() {
    do {
      if (this.#isStale) this.#recall();
    } while (this.#sendFirst(this.#nextQueue()));
  }

  /** Sends what can be, also of what was put off: that may be much, and so once for all that changes in a task. */
  lookAgain() {
    if (this.#putOff.size === 0) {
      this.flush();
    } else if (!this.#isStale) {
      this.#isStale = true;
      runAsTask(() => this.flush());
    }
  }

  /** What was put off has its place in the order again. */
  #recall() {
    const all = this.#putOff;
    while (this.#unbound.size > 0) all.push(this.#unbound.shift());
    this.#unbound = all;
    this.#putOff = new Queue();
    this.#namesPutOff.clear();
    this.#isStale = false;
  }

  /** The queue whose first sending was asked for before the other's. */
  #nextQueue() {
    const bound = this.#bound.peek();
    const unbound = this.#unbound.peek();
    return bound === undefined || unbound?.place < bound.place ? this.#unbound : this.#bound;
  }

  /** Whether a queue's first sending is dealt with, or one that passes it, so that the next may follow. */
  #sendFirst(queue) {
    const sending = queue.peek()?.sending;
    if (sending === undefined) return false;
    if (sending.isCancelled || sending.agent?.isClosed) return queue.shift() !== undefined;
    const agent = sending.agent ?? this.#current;
    if (agent === null || (agent !== this.#last && this.#unanswered > 0)) return false;
    const message = this.#isBehind(sending) ? null : sending.compose(agent);
    if (message === null) return this.#putOffFirst() || this.#unstick() || this.#letPass();
    queue.shift();
    this.#send(message, agent, sending);
    return true;
  }

  #isBehind(sending) {
    return sending.agent === null && this.#putOff.size > 0 && sending.isBehind(this.#namesPutOff);
  }

  /** Puts off the first sending without an agent, if there is a fault for which it must wait. Whether that is so. */
  #putOffFirst() {
    const fault = this.#shortage();
    if (fault === null) return false;
    const entry = this.#unbound.shift();
    const name = entry.sending.putOff(fault);
    if (entry.sending.isCancelled) return true;
    this.#putOff.push(entry);
    if (name !== null) this.#namesPutOff.add(name);
    return true;
  }

  /** Whether what has an agent passes what must wait. */
  #letPass() {
    return this.#isStuck() && this.#sendFirst(this.#bound);
  }

  #send(message, agent, sending) {
    this.#last = agent;
    this.#unanswered += 1;
    agent.ask(message, (reply) => {
      this.#unanswered -= 1;
      sending.answered(reply);
      this.flush();
    });
  }

  /** Forgets all that wasn't answered. */
  reset() {
    this.#bound = new Queue();
    this.#unbound = new Queue();
    this.#putOff = new Queue();
    this.#namesPutOff.clear();
    this.#isStale = false;
    this.#current = null;
    this.#last = null;
    this.#unanswered = 0;
  }
}
