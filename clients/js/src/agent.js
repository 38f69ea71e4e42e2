/** An agent of the service: a connection that opened, its signals, and its requests by the service's numbers. */

import { Connection } from "./connection.js";
import { faultOfRefusal } from "./faults.js";
import { openMessage } from "./settings.js";
import { SignalSupply } from "./signals.js";
import { openSocket } from "./transport.js";

export class Agent {
  #connection;
  #requests = new Map();
  #waiting = 0;
  #unanswered = 0;
  #onLost = () => {};
  #onIdle = () => {};

  /** Its signals. */
  signals = new SignalSupply((answered) => {
    this.ask({ op: "signal" }, ({ ok }) => answered(ok?.signal ?? null));
  });

  /** The service's name of it, or null where its origin is opaque. */
  clientId = null;

  /** Whether it was closed, by which the service frees all that it has: there is nothing more to ask it. */
  isClosed = false;

  constructor(opened, settings) {
    this.#connection = new Connection(opened, settings, {
      onNotice: ({ request, phase }, fence) => this.#requests.get(request)?.hear(phase, fence),
      onLost: (fault) => this.#lose(fault),
    });
  }

  /**
   * Connects and opens an agent, which has a signal to spare.
   *
   * @param {object} settings as `readSettings` gives them
   * @param {{onLost: (fault: Error) => void, onIdle: () => void}} listeners called later: `onLost` when the connection
   *   is lost, `onIdle` each time that the agent has become idle
   * @param {AbortSignal} signal gives up
   * @returns {Promise<Agent>} rejected where there is no connection, or the service refuses the agent
   */
  static async open(settings, { onLost, onIdle }, signal) {
    const opened = await openSocket(settings, signal);
    const agent = new Agent(opened, settings);
    const giveUp = () => agent.#lose(signal.reason);
    signal.addEventListener("abort", giveUp);
    try {
      await agent.#open(settings);
      agent.#onLost = onLost;
      agent.#onIdle = onIdle;
      return agent;
    } catch (fault) {
      agent.cut();
      throw fault;
    } finally {
      signal.removeEventListener("abort", giveUp);
    }
  }

  #open(settings) {
    return new Promise((resolve, reject) => {
      this.#onLost = reject;
      this.ask(openMessage(settings), ({ ok, error }) => {
        if (error !== undefined) {
          reject(faultOfRefusal(error));
          return;
        }
        this.clientId = ok.client;
        if (this.clientId === null) resolve();
        else this.signals.provide(1, resolve);
      });
    });
  }

  #lose(fault) {
    this.#onLost(fault);
  }

  /** Sends a message; `answered` is called with its reply. */
  ask(message, answered) {
    this.#unanswered += 1;
    this.#connection.ask(message, (reply) => {
      this.#unanswered -= 1;
      answered(reply);
      this.#tellIfIdle();
    });
  }

  /** Whether none of its requests is live, and all is answered that it was asked: nobody waits for anything of it. */
  get isIdle() {
    return this.#requests.size === 0 && this.#unanswered === 0;
  }

  #tellIfIdle() {
    if (this.isIdle) this.#onIdle();
  }

  /** A request was sent, and its next change is waited for. */
  beginWaiting() {
    this.#waiting += 1;
    if (this.#waiting === 1) this.#connection.isWaiting = true;
  }

  /** News of a request came. */
  endWaiting() {
    this.#waiting -= 1;
    if (this.#waiting === 0) this.#connection.isWaiting = false;
  }

  /** The service has given a request a number, by which it tells of it. */
  enter(number, request) {
    this.#requests.set(number, request);
  }

  /** The service has no more to tell of a request. */
  remove(number) {
    this.#requests.delete(number);
    this.#tellIfIdle();
  }

  /** Ends the agent and then its connection; `ended` is called once its locks have passed on. */
  close(ended) {
    this.isClosed = true;
    this.#onLost = ended;
    this.ask({ op: "close" }, () => {
      this.#connection.end();
      ended();
    });
  }

  /** Ends the connection at once. */
  cut() {
    this.#connection.cut();
  }
}
