/** All calls of one LockManager, in their order, from the first connection to the end, whatever is lost between. */

import { Agents } from "./agents.js";
import { Call } from "./call.js";
import { abortError, faultOfRefusal, invalidStateError, isFinal, networkError, securityError } from "./faults.js";
import { unescapeName } from "./names.js";
import { Outbox } from "./outbox.js";
import { LockRequest } from "./request.js";
import { isOpaque } from "./settings.js";

const CONNECTING = "connecting";
const OPEN = "open";
const LOST = "lost";
const CLOSED = "closed";

export class Session {
  #settings;
  #onLost;
  #onStalled;
  #onRestored;
  #state = CONNECTING;
  #isActive = true;
  #isOpaque;
  #agents;
  #outbox = new Outbox(() => this.#goOn(), () => this.#agents.isUsedUp, () => this.#agents.shortage);

  /** The calls that haven't ended, in their order, each with its request; null while the connection is lost. */
  #calls = new Map();
  /** What rejects the promises of queries and the like. */
  #questions = new Set();
  /** How many requests that weren't sent yet need a signal. */
  #wanting = 0;

  #refusalOnceClosed = null;
  #tellClosed;

  /** A promise of why the session ended: it is never rejected. */
  closed = new Promise((resolve) => {
    this.#tellClosed = resolve;
  });

  /**
   * @param {object} settings as `readSettings` gives them
   * @param {{onLost: (fault: Error) => void, onStalled: (fault: Error) => void, onRestored: () => void}} listeners
   */
  constructor(settings, { onLost, onStalled, onRestored }) {
    this.#settings = settings;
    this.#onLost = onLost;
    this.#onStalled = onStalled;
    this.#onRestored = onRestored;
    this.#isOpaque = isOpaque(settings);
    this.#agents = new Agents(settings, {
      onLost: (fault) => this.#lose(fault, isFinal(fault) || !settings.reconnect),
      onStalled: (fault) => this.#stall(fault),
      onNews: () => this.#outbox.lookAgain(),
    });
  }

  /** Connects. Rejected, and the session closed, where that fails. */
  async open() {
    try {
      await this.#openFirst();
    } catch (fault) {
      this.#lose(fault, true);
      throw fault;
    }
  }

  /** Connects, and where that fails goes on as after a loss: all calls wait until then, and plain ones alone longer. */
  async openLater() {
    try {
      await this.#openFirst();
    } catch (fault) {
      this.#lose(fault, isFinal(fault) || !this.#settings.reconnect);
    }
  }

  /** What refuses any request or query now, as `{reason}`, or null. */
  get refusal() {
    if (this.#state === CLOSED) return { reason: this.#refusalOnceClosed() };
    if (!this.#isActive) return { reason: invalidStateError("The agent isn't active") };
    if (this.#isOpaque) return { reason: securityError("An opaque origin has no locks") };
    return null;
  }

  /** Does a call of `request`, which nothing refuses, and gives its promise. */
  request(asked) {
    const call = new Call(asked, {
      onAbort: () => this.#calls.get(call)?.giveUp(),
      onReturn: () => this.#calls.get(call).release(),
      onEnd: () => this.#calls.delete(call),
    });
    if (this.#state === LOST && !call.isPlain) {
      call.end(lostError());
      return call.promise;
    }
    this.#calls.set(call, null);
    if (this.#state !== LOST) this.#ask(call);
    return call.promise;
  }

  /** A promise of what is held and pending, as the standard's snapshot. */
  async query() {
    const { held, pending } = await this.#question({ op: "query" });
    return { held: held.map((lock) => this.#show(lock)), pending: pending.map((lock) => this.#show(lock)) };
  }

  /** Makes a window active or inactive. While the connection is lost the next one is told. */
  async setActive(isActive) {
    if (this.#settings.kind !== "window") throw invalidStateError("A worker is always active");
    if (this.#state === CLOSED) throw this.#refusalOnceClosed();
    this.#isActive = isActive;
    if (this.#state !== LOST) await this.#question(activeMessage(isActive));
  }

  /** Gives up all, and gives `closed`, which is settled once the service has freed what was held. */
  close() {
    if (this.#state === CLOSED) return this.closed;
    const fault = abortError("The LockManager was closed");
    this.#state = CLOSED;
    this.#refusalOnceClosed = () => invalidStateError("The LockManager is closed");
    this.#outbox.reset();
    this.#agents.close().then(() => this.#tellClosed(fault));
    this.#endAll(fault);
    return this.closed;
  }

  #ask(call) {
    const needsSignal = call.asked.signal !== undefined;
    if (needsSignal) this.#wanting += 1;
    const request = new LockRequest(call, this.#outbox, () => {
      if (needsSignal) this.#provideSignals(-1);
    });
    this.#calls.set(call, request);
    this.#outbox.push(request);
  }

  /**
   * Asks the service. A query passes requests that were put off. What says whether the window is active stays behind
   * them, since it doesn't concern them; to its caller it is done then, as it is while the connection is lost.
   */
  #question(message) {
    if (this.#state === LOST) return Promise.reject(lostError());
    return new Promise((resolve, reject) => {
      this.#questions.add(reject);
      const answered = ({ ok, error }) => {
        this.#questions.delete(reject);
        if (error === undefined) resolve(ok);
        else reject(faultOfRefusal(error));
      };
      const isBehind = () => message.op !== "query";
      const putOff = () => {
        resolve();
        return null;
      };
      this.#outbox.push({ agent: null, isCancelled: false, isBehind, putOff, compose: () => message, answered });
    });
  }

  #show({ clientId, mode, name }) {
    return { clientId: this.#agents.shownClientId(clientId), mode, name: unescapeName(name) };
  }

  /** One signal more than the requests need that wait for one is to be ready or asked for. */
  #provideSignals(change = 0) {
    this.#wanting += change;
    this.#agents.provideSignals(this.#wanting + 1);
  }

  /**
   * A request waits for a signal: has it asked for, or the agent's successor serve where there is none left. Whether it
   * is to be looked at again: it can be sent, or is put off, as a successor is tried for that was refused before.
   */
  #goOn() {
    this.#provideSignals();
    if (!this.#agents.moveOn()) return this.#agents.shortage !== null;
    this.#heedAgent();
    return true;
  }

  /**
   * A further connection can't be had now. Where it is refused for good, what needs one is ended: what is called later
   * may have another tried for.
   */
  #stall(fault) {
    if (isFinal(fault) && this.#agents.isUsedUp) {
      const { current } = this.#agents;
      for (const request of [...this.#calls.values()]) request.refuse(current, fault);
    }
    this.#outbox.lookAgain();
    this.#onStalled(fault);
  }

  async #openFirst() {
    await this.#agents.open();
    if (this.#state === CLOSED) throw this.#refusalOnceClosed();
    this.#state = OPEN;
    this.#heedAgent();
    this.#outbox.flush();
  }

  /** Another agent serves from here on. It is active, as the window was when what goes out next was called. */
  #heedAgent() {
    const agent = this.#agents.current;
    this.#isOpaque = agent.clientId === null;
    this.#outbox.current = agent;
  }

  /**
   * Ends what was lost with the connection. The page's own code may run as soon as a call ends, and may close the
   * LockManager: so all is in order before.
   */
  #lose(fault, isForGood) {
    if (this.#state === CLOSED) return;
    const told = faultOfLoss(fault);
    this.#state = isForGood ? CLOSED : LOST;
    this.#refusalOnceClosed = () => faultOfLoss(fault);
    this.#agents.cut();
    this.#outbox.reset();
    this.#wanting = 0;
    if (isForGood) {
      this.#tellClosed(fault);
      this.#endAll(told);
    } else {
      this.#restore();
      this.#endAllButWaiting(told);
    }
    this.#onLost(told);
  }

  #endAll(fault) {
    const calls = this.#calls;
    this.#calls = new Map();
    this.#endQuestions(fault);
    for (const call of calls.keys()) call.end(fault);
  }

  /** What may have been done isn't asked for again: only plain requests that wait are, which have done nothing yet. */
  #endAllButWaiting(fault) {
    const calls = [...this.#calls.keys()];
    const waiting = calls.filter((call) => call.isPlain && !call.isHeld);
    this.#calls = new Map(waiting.map((call) => [call, null]));
    for (const call of waiting) call.waitAgain();
    this.#endQuestions(fault);
    for (const call of calls) {
      if (call.isHeld || !call.isPlain) call.end(fault);
    }
  }

  #endQuestions(fault) {
    for (const reject of this.#questions) reject(fault);
    this.#questions.clear();
  }

  async #restore() {
    try {
      await this.#agents.openAgain();
    } catch (fault) {
      this.#lose(fault, true);
      return;
    }
    if (this.#state === CLOSED) return;
    this.#state = OPEN;
    this.#heedAgent();
    for (const call of this.#calls.keys()) this.#ask(call);
    // (what waits was called before the window was made inactive, and so goes before)
    if (!this.#isActive) this.#question(activeMessage(false)).catch(() => {});
    this.#onRestored();
  }
}

/** What calls are rejected with that a loss ends, and those after the last one. */
function faultOfLoss({ name, message }) {
  return name === "SecurityError" ? securityError(message) : networkError(message);
}

function lostError() {
  return networkError("The connection to the server is lost");
}

function activeMessage(active) {
  return { op: "active", active };
}
