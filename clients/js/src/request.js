/** A request as the service has it: sent for a call, over the connection of one agent. */

import { abortError, faultOfRefusal, networkError } from "./faults.js";

export class LockRequest {
  #call;
  #outbox;
  #onSent;
  #number = null;
  #loan = null;
  #isWaiting = false;

  /** Over which agent's connection it was sent; null until then. */
  agent = null;

  /** Whether it isn't to be sent any more. */
  isCancelled = false;

  /**
   * @param {import("./call.js").Call} call
   * @param {import("./outbox.js").Outbox} outbox
   * @param {() => void} onSent called where it was sent or won't be
   */
  constructor(call, outbox, onSent) {
    this.#call = call;
    this.#outbox = outbox;
    this.#onSent = onSent;
  }

  /** Whether it must stay behind requests of these names. */
  isBehind(names) {
    return names.has(this.#call.asked.wireName);
  }

  /** It is to wait for nobody knows how long, which a plain one does and another doesn't. Gives its name. */
  putOff(fault) {
    if (!this.#call.isPlain) {
      this.isCancelled = true;
      this.#call.end(networkError(`A request before it waits for a further connection: ${fault.message}`));
    }
    return this.#call.asked.wireName;
  }

  /** Ends its call where it wasn't sent, and needs a signal of this agent, which has no more to lend. */
  refuse(agent, fault) {
    const { signal } = this.#call.asked;
    if (this.agent !== null || signal === undefined || agent.signals.isLent(signal)) return;
    this.#cancel();
    this.#call.end(fault);
  }

  /** Its message, or null where its signal needs one of the agent's, and none is ready. */
  compose(agent) {
    const { wireName, signal } = this.#call.asked;
    if (signal !== undefined) {
      this.#loan = agent.signals.lend(signal);
      if (this.#loan === null) return null;
    }
    this.agent = agent;
    this.#isWaiting = true;
    agent.beginWaiting();
    this.#onSent();
    return { op: "request", name: wireName, options: this.#options() };
  }

  /** What isn't as it is where nothing is said. */
  #options() {
    const { mode, ifAvailable, steal } = this.#call.asked;
    const options = {};
    if (ifAvailable) options.ifAvailable = true;
    if (mode !== "exclusive") options.mode = mode;
    if (steal) options.steal = true;
    if (this.#loan !== null) options.signal = this.#loan.number;
    return options;
  }

  /** Its reply: the number by which it will be told of, or a refusal. */
  answered({ ok, error }) {
    if (error !== undefined) {
      this.#endWaiting();
      this.#call.end(faultOfRefusal(error));
      return;
    }
    this.#number = ok.request;
    this.agent.enter(this.#number, this);
  }

  /** News of it, by the word of its phase; with a grant the lock's fencing token, or null where there is none. */
  hear(phase, fence) {
    this.#endWaiting();
    if (phase === "granted") {
      if (!this.#call.grant(fence)) this.release();
      return;
    }
    if (phase === "unavailable") this.#call.tellUnavailable();
    else if (phase === "stolen") this.#call.end(stolen());
    this.agent.remove(this.#number);
  }

  /** Gives up what was asked for: the call has ended. */
  giveUp() {
    if (this.agent === null) {
      this.#cancel();
      this.#outbox.lookAgain();
    } else if (!this.#isWaiting) {
      this.release();
    } else if (this.#loan !== null && !this.#loan.isAborted) {
      const signal = this.#loan.number;
      this.#loan.isAborted = true;
      this.#send({ op: "abort", signal }, () => {});
    }
  }

  /** Releases the lock. What isn't held any more was stolen. */
  release() {
    this.#send({ op: "release", request: this.#number }, ({ ok }) => {
      if (ok?.release === "released") this.#call.finish();
      else this.#call.end(stolen());
      this.agent.remove(this.#number);
    });
  }

  #cancel() {
    this.isCancelled = true;
    this.#onSent();
  }

  #send(message, answered) {
    this.#outbox.push({ agent: this.agent, isCancelled: false, compose: () => message, answered });
  }

  /** Its signal can serve the next request from here on. */
  #endWaiting() {
    if (!this.#isWaiting) return;
    this.#isWaiting = false;
    this.agent.endWaiting();
    if (this.#loan === null) return;
    this.agent.signals.takeBack(this.#loan);
    this.#outbox.lookAgain();
  }
}

function stolen() {
  return abortError("The lock was stolen");
}
