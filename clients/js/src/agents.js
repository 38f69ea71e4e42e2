/**
 * The agents that serve one LockManager: the first; its successor, once its signals are used up; and after a loss of
 * the connection the next.
 */

import { Agent } from "./agent.js";
import { delayAfter, wait } from "./delays.js";
import { isFinal, networkError } from "./faults.js";

/** With so few signals left an agent's successor is opened. */
const SIGNALS_IN_RESERVE = 64;

export class Agents {
  #settings;
  #onLost;
  #onStalled;
  #onNews;
  #all = new Set();
  #current = null;
  #next = null;
  #isOpeningNext = false;
  /** Why the last try for a successor failed, or the last successor was lost, if no other came since. */
  #fault = null;
  /** Whether the last try was refused for good: then one is opened only where there is need. */
  #isRefused = false;
  /** How many successors were lost since one served. */
  #losses = 0;
  /** The service's names of them, in the order in which they came. */
  #clientIds = new Set();
  /** What gives up the tries to connect that are under way. */
  #trying = new AbortController();

  /**
   * @param {object} settings as `readSettings` gives them
   * @param {{onLost: (fault: Error) => void, onStalled: (fault: Error) => void, onNews: () => void}} listeners `onLost`
   *   where one was lost that is to serve, has requests or owes a reply; `onStalled` where a try for a successor
   *   failed, or a successor was lost, and others follow unless the fault is final; `onNews` where there is a signal,
   *   or a successor, that wasn't there before
   */
  constructor(settings, { onLost, onStalled, onNews }) {
    this.#settings = settings;
    this.#onLost = onLost;
    this.#onStalled = onStalled;
    this.#onNews = onNews;
  }

  /** The one that serves new requests, or null while there is none. */
  get current() {
    return this.#current;
  }

  /** Connects the first. Rejected where that fails, or is given up. */
  open() {
    return this.#open((agent) => this.#serve(agent));
  }

  /** Connects another after a loss, in time, however many tries it takes. Rejected where there is no sense in more. */
  async openAgain() {
    await this.#openInTime((agent) => this.#serve(agent), 1, () => {});
  }

  /** Sees that so many signals are ready or asked for, and that there is a successor where few are left. */
  provideSignals(count) {
    if (this.#current === null) return;
    this.#current.signals.provide(count, this.#onNews);
    if (this.#current.signals.left <= SIGNALS_IN_RESERVE && !this.#isRefused) this.#openNext();
  }

  /** Whether the present agent has no signals left: a request with one waits for a successor, or another's signal. */
  get isUsedUp() {
    return this.#current.signals.left === 0;
  }

  /** Why a request with a signal waits though a successor was tried for, and is tried for again, or null. */
  get shortage() {
    return this.isUsedUp && this.#isOpeningNext ? this.#fault : null;
  }

  /** Has the successor serve, if the present agent is used up: whether there is one. Else it is tried for. */
  moveOn() {
    if (!this.isUsedUp) return false;
    if (this.#next === null) {
      this.#openNext();
      return false;
    }
    const before = this.#current;
    this.#serve(this.#next);
    this.#next = null;
    this.#losses = 0;
    if (before.isIdle) this.#retire(before);
    return true;
  }

  /** The name by which a client is shown: that of the first of these for all of them. */
  shownClientId(clientId) {
    const [first] = this.#clientIds;
    return this.#clientIds.has(clientId) ? first : clientId;
  }

  /** Cuts all connections, and gives up the tries to connect. */
  cut() {
    for (const agent of this.#all) agent.cut();
    this.#forget();
  }

  /** Gives up the tries to connect, and closes all agents. Settled once the service has freed what they held. */
  async close() {
    const all = [...this.#all];
    this.#forget();
    await Promise.all(all.map((agent) => new Promise((resolve) => agent.close(resolve))));
  }

  #serve(agent) {
    this.#enter(agent);
    this.#current = agent;
  }

  /**
   * An agent that serves no new requests is closed once it is idle. Not before: its loss is told to nobody from then
   * on, and whoever waited for a reply of it would wait for good.
   */
  #retire(agent) {
    if (agent === this.#current || agent === this.#next) return;
    if (this.#all.delete(agent)) agent.close(() => {});
  }

  #enter(agent) {
    this.#all.add(agent);
    if (agent.clientId !== null) this.#clientIds.add(agent.clientId);
  }

  async #openNext() {
    if (this.#next !== null || this.#isOpeningNext) return;
    const { signal } = this.#trying;
    this.#isOpeningNext = true;
    try {
      await this.#openInTime((agent) => this.#keepNext(agent), this.#losses, (fault) => this.#stall(fault));
    } catch (fault) {
      if (!signal.aborted) this.#refuse(fault);
      return;
    }
    this.#onNews();
  }

  #stall(fault) {
    this.#fault = fault;
    this.#onStalled(fault);
  }

  #refuse(fault) {
    this.#isOpeningNext = false;
    this.#isRefused = true;
    this.#stall(fault);
  }

  #endTries() {
    this.#isOpeningNext = false;
    this.#isRefused = false;
    this.#fault = null;
  }

  #keepNext(agent) {
    this.#endTries();
    this.#enter(agent);
    this.#next = agent;
  }

  /** Connects an agent, however many tries it takes, each but the first after a delay. */
  async #openInTime(use, triesBefore, failed) {
    const { signal } = this.#trying;
    for (let tries = triesBefore; ; tries += 1) {
      if (tries > 0) await wait(delayAfter(tries - 1), signal);
      try {
        return await this.#open(use);
      } catch (fault) {
        if (signal.aborted || isFinal(fault)) throw fault;
        failed(fault);
      }
    }
  }

  /** Connects an agent and has it used, unless connecting was given up by then. */
  async #open(use) {
    const { signal } = this.#trying;
    const listeners = { onLost: (fault) => this.#lose(fault, agent), onIdle: () => this.#retire(agent) };
    const agent = await Agent.open(this.#settings, listeners, signal);
    if (signal.aborted) {
      agent.cut();
      throw signal.reason;
    }
    use(agent);
  }

  /** A successor that has served nobody is replaced, as where a try for it failed. */
  #lose(fault, agent) {
    if (agent !== this.#next) {
      this.#onLost(fault);
      return;
    }
    this.#all.delete(agent);
    this.#next = null;
    this.#losses += 1;
    if (isFinal(fault)) this.#refuse(fault);
    else this.#stall(fault);
    this.provideSignals(1);
  }

  #forget() {
    this.#trying.abort(networkError("Connecting was given up"));
    this.#trying = new AbortController();
    this.#all.clear();
    this.#clientIds.clear();
    this.#current = null;
    this.#next = null;
    this.#losses = 0;
    this.#endTries();
  }
}
