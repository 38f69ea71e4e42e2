/**
 * Signs of life: a port tells nobody that the page behind it was closed or killed.
 *
 * A page that holds a lock of the browser's own is alive until that lock passes on, whatever its timers and its event
 * loop do. Any other is pinged, which its message handler answers, and is given up after some rounds of silence. Rounds
 * are counted, and not time: after a machine has slept all pages would seem to have been silent for long.
 */

/** Milliseconds between two pings. */
const ROUND = 2000;

/** With so many rounds without a sign a page is gone: it was heard 6 to 8 seconds before. */
const MOST_SILENT_ROUNDS = 3;

export class Life {
  #onEnd;
  #locks;
  #round;
  #known = new WeakSet();
  /** Each peer that is pinged, with its rounds of silence. */
  #pinged = new Map();
  /** Each peer whose lock is waited for, with what gives that up. */
  #held = new Map();
  #timer = null;

  /**
   * @param {(peer: object) => void} onEnd called once for a peer that is gone
   * @param {{locks?: LockManager, round?: number}} [options] the browser's locks, unless it has none for this origin;
   *   and milliseconds between two pings
   */
  constructor(onEnd, { locks = globalThis.navigator?.locks, round = ROUND } = {}) {
    this.#onEnd = onEnd;
    this.#locks = locks;
    this.#round = round;
  }

  /** Watches over a peer, which has a method `ping`, from the first call on. */
  watch(peer) {
    if (this.#known.has(peer)) return;
    this.#known.add(peer);
    this.#pinged.set(peer, 0);
    this.#timer ??= setInterval(() => this.#ping(), this.#round);
  }

  /** Something came from a peer. */
  hear(peer) {
    if (this.#pinged.has(peer)) this.#pinged.set(peer, 0);
  }

  /** A peer says that its page holds this lock, and isn't pinged any more where that is so. */
  async hold(peer, name) {
    this.watch(peer);
    if (this.#locks === undefined || this.#held.has(peer)) return;
    const waiting = new AbortController();
    this.#held.set(peer, waiting);
    try {
      if (await this.#isHeld(name)) await this.#waitFor(peer, name, waiting.signal);
    } catch {
      // (it was forgotten, or the name is none: then the pings go on)
    }
    this.#held.delete(peer);
  }

  /** A peer has ended by itself. */
  forget(peer) {
    this.#held.get(peer)?.abort();
    this.#stopPinging(peer);
  }

  /** Whoever finds the lock free must not take that for its release: the page may mean a lock of another kind. */
  #isHeld(name) {
    return this.#locks.request(name, { mode: "shared", ifAvailable: true }, (lock) => lock === null);
  }

  async #waitFor(peer, name, signal) {
    if (!this.#pinged.has(peer)) return;
    this.#stopPinging(peer);
    await this.#locks.request(name, { mode: "shared", signal }, () => {});
    if (!signal.aborted) this.#onEnd(peer);
  }

  #ping() {
    for (const [peer, rounds] of this.#pinged) {
      if (rounds === MOST_SILENT_ROUNDS) {
        this.#stopPinging(peer);
        this.#onEnd(peer);
      } else {
        this.#pinged.set(peer, rounds + 1);
        peer.ping();
      }
    }
  }

  #stopPinging(peer) {
    this.#pinged.delete(peer);
    if (this.#pinged.size > 0) return;
    clearInterval(this.#timer);
    this.#timer = null;
  }
}
