/** The LockManager of pages (Web Locks, `LockManager`), with what a service adds. */

import { readArguments, refusalOfCall } from "./arguments.js";
import { lostSignalOf } from "./call.js";
import { quotaExceededError } from "./faults.js";
import { showAsPlatformObject } from "./lock.js";
import { isTooLong } from "./names.js";
import { Session } from "./session.js";

const MAKING = Symbol("making");

/**
 * Makes a LockManager, and its session, which is to be opened.
 *
 * @type {(settings: object) => {manager: LockManager, session: Session}}
 */
export let makeManager;

/** An event that says why it came to that. */
class ReasonedEvent extends Event {
  #reason;

  constructor(type, reason) {
    super(type);
    this.#reason = reason;
  }

  get reason() {
    return this.#reason;
  }
}

/** An event `"lost"`, whose `reason` is what the promises of the locks that were held are rejected with. */
export class LostEvent extends ReasonedEvent {
  constructor(reason) {
    super("lost", reason);
  }
}

/** An event `"stalled"`, whose `reason` is why a further connection couldn't be had. */
export class StalledEvent extends ReasonedEvent {
  constructor(reason) {
    super("stalled", reason);
  }
}

export class LockManager extends EventTarget {
  #session;

  /** Programs connect; they make no LockManager. */
  constructor(key, settings) {
    if (key !== MAKING) throw new TypeError("Illegal constructor");
    super();
    this.#session = new Session(settings, {
      onLost: (fault) => this.dispatchEvent(new LostEvent(fault)),
      onStalled: (fault) => this.dispatchEvent(new StalledEvent(fault)),
      onRestored: () => this.dispatchEvent(new Event("restored")),
    });
  }

  /**
   * `request(name, callback)` or `request(name, options, callback)`: calls the callback while the lock is held.
   *
   * @returns {Promise<unknown>} settles as what the callback returned, once the release was answered
   */
  // The parameters are named for the function's length alone, which is the standard's.
  request(_name, _callback) {
    try {
      return this.#request(arguments);
    } catch (fault) {
      return Promise.reject(fault);
    }
  }

  /** A promise of what is held and pending, of all clients of the manager. */
  query() {
    try {
      const { refusal } = this.#session;
      return refusal === null ? this.#session.query() : Promise.reject(refusal.reason);
    } catch (fault) {
      return Promise.reject(fault);
    }
  }

  /** Gives up all that is held or pending: those promises reject with AbortError. */
  close() {
    return this.#session.close();
  }

  /** A promise of why the LockManager can't be used any more, an Error. It is never rejected. */
  get closed() {
    return this.#session.closed;
  }

  /** Makes a window active or inactive, as a document is that is fully active or isn't. */
  setActive(active) {
    return this.#session.setActive(Boolean(active));
  }

  /** An AbortSignal, aborted when the lock is stolen or lost while it is held. */
  lostSignal(lock) {
    const signal = lostSignalOf(lock);
    if (signal === undefined) throw new TypeError("That isn't a lock");
    return signal;
  }

  #request(given) {
    const asked = readArguments(given);
    const refusal = this.#session.refusal ?? refusalOfCall(asked) ?? refusalOfLength(asked);
    return refusal === null ? this.#session.request(asked) : Promise.reject(refusal.reason);
  }

  static {
    makeManager = (settings) => {
      const manager = new LockManager(MAKING, settings);
      return { manager, session: manager.#session };
    };
  }
}

showAsPlatformObject(LockManager, ["request", "query", "close", "closed", "setActive", "lostSignal"]);

function refusalOfLength({ wireName }) {
  if (!isTooLong(wireName)) return null;
  return { reason: quotaExceededError("The name has more than 1,024 bytes of UTF-8") };
}
