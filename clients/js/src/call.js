/** One call of `request`, as its page sees it: its promise, its callback and its signal. */

import { abortReason, heedAbort, ignoreAbort } from "./aborts.js";
import { holderOf, makeLock } from "./lock.js";
import { runAsTask } from "./tasks.js";

/** What a call has come to. */
const WAITING = "waiting";
const GRANTED = "granted"; // its callback is about to be called
const HELD = "held"; // its callback was called
const RELEASING = "releasing"; // what that returned has settled
const ENDED = "ended"; // its promise is settled, or follows what the callback returned

export class Call {
  #asked;
  #onAbort;
  #onReturn;
  #onEnd;
  #state = WAITING;
  #given = null;
  #settle;
  #resolve;
  #reject;
  #loss = null;
  #lossReason;
  #heedAbort = null;

  /**
   * @param {object} asked what `readArguments` read
   * @param {{onAbort: () => void, onReturn: () => void, onEnd: () => void}} listeners `onAbort` where the signal ended
   *   the call, `onReturn` where the lock is to be released, `onEnd` once it has ended
   */
  constructor(asked, { onAbort, onReturn, onEnd }) {
    this.#asked = asked;
    this.#onAbort = onAbort;
    this.#onReturn = onReturn;
    this.#onEnd = onEnd;
    /** What `request` returns. */
    this.promise = new Promise((resolve, reject) => {
      this.#resolve = resolve;
      this.#reject = reject;
    });
    if (asked.signal !== undefined) {
      this.#heedAbort = () => this.#abort();
      heedAbort(asked.signal, this.#heedAbort);
    }
  }

  /** What was asked for. */
  get asked() {
    return this.#asked;
  }

  /** Whether to ask twice changes nothing but the time. */
  get isPlain() {
    return !this.#asked.ifAvailable && !this.#asked.steal;
  }

  /** Whether the callback was called with a lock, which wasn't released yet. */
  get isHeld() {
    return this.#state === HELD || this.#state === RELEASING;
  }

  /** Aborted when the lock is stolen or lost while it is held. Few ask for it, so that it is made when one does. */
  get lostSignal() {
    if (this.#loss === null) {
      this.#loss = new AbortController();
      if (this.#lossReason !== undefined) this.#loss.abort(this.#lossReason);
    }
    return this.#loss.signal;
  }

  /**
   * The lock is held: calls the callback, in a task of its own. False where the call has ended before.
   *
   * @param {string | null} fence the lock's fencing token
   */
  grant(fence) {
    if (this.#state === ENDED) return false;
    const { name, mode } = this.#asked;
    this.#callLater(makeLock({ name, mode, fence }, this));
    return true;
  }

  /** The lock wasn't available: the callback is called with null. */
  tellUnavailable() {
    if (this.#state !== ENDED) this.#callLater(null);
  }

  /** The release was answered: the promise settles as what the callback returned. */
  finish() {
    if (this.#state !== RELEASING) return;
    this.#close();
    this.#settle();
  }

  /** Rejects the promise, unless it is settled. A callback that runs goes on, and its lock's lost signal is aborted. */
  end(fault) {
    if (this.#state === ENDED) return;
    if (this.isHeld) this.#lossReason = fault;
    this.#close();
    this.#reject(fault);
    if (this.#lossReason !== undefined) this.#loss?.abort(fault);
  }

  /** What was granted is lost before the callback was called: the call waits again. */
  waitAgain() {
    this.#state = WAITING;
  }

  /** A grant that was lost meanwhile, with its fencing token, isn't the one that the callback is called with. */
  #callLater(lock) {
    this.#state = GRANTED;
    this.#given = lock;
    runAsTask(() => {
      if (this.#state === GRANTED && this.#given === lock) this.#call(lock);
    });
  }

  #call(lock) {
    this.#ignoreSignal();
    this.#state = HELD;
    const result = new Promise((resolve) => {
      resolve(Reflect.apply(this.#asked.callback, undefined, [lock]));
    });
    if (lock === null) {
      this.#settleUnheld(result);
      return;
    }
    result.then(
      (value) => this.#return(() => this.#resolve(value)),
      (reason) => this.#return(() => this.#reject(reason)),
    );
  }

  /** There is no lock to release. The callback may have closed the LockManager, by which the call has ended. */
  #settleUnheld(result) {
    if (this.#state === ENDED) {
      result.catch(() => {});
      return;
    }
    this.#close();
    this.#resolve(result);
  }

  /** What the callback returned has settled, and so will the promise once the release was answered. */
  #return(settle) {
    if (this.#state !== HELD) return;
    this.#state = RELEASING;
    this.#settle = settle;
    this.#onReturn();
  }

  #abort() {
    this.#onAbort();
    this.#close();
    this.#reject(abortReason(this.#asked.signal));
  }

  #close() {
    this.#state = ENDED;
    this.#ignoreSignal();
    this.#onEnd();
  }

  #ignoreSignal() {
    if (this.#heedAbort !== null) ignoreAbort(this.#asked.signal, this.#heedAbort);
  }
}

/** The signal that says that a lock was stolen or lost, or undefined for what isn't a lock. */
export function lostSignalOf(lock) {
  return holderOf(lock)?.lostSignal;
}
