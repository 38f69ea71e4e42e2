/**
 * Aborts of the page's signals, heard as the platform hears them: whatever a page does with a signal's events and
 * members, and however many requests wait with it.
 */

const signalGetter = (name) => Object.getOwnPropertyDescriptor(AbortSignal.prototype, name).get;
const abortedOf = signalGetter("aborted");
const reasonOf = signalGetter("reason");
const { addEventListener, removeEventListener } = EventTarget.prototype;

/** What is to be called for each signal, in order, and what listens. */
const heeded = new WeakMap();

/** A signal of our own for each of the page's. */
const followers = new WeakMap();

/** By the DOM these put a listener before a page's own; Node and Chromium call a signal's as they were added. */
const OPTIONS = { capture: true };

/**
 * Whether a signal is aborted, whatever the page made of its properties.
 *
 * @throws {TypeError} where it is no AbortSignal
 */
export function isAborted(signal) {
  return Reflect.apply(abortedOf, signal, []);
}

/** The reason that a signal was aborted with. */
export function abortReason(signal) {
  return Reflect.apply(reasonOf, signal, []);
}

/** Has a function called, once, when the signal is aborted. */
export function heedAbort(signal, heed) {
  const entry = heeded.get(signal) ?? listen(signal);
  entry.all.add(heed);
}

/** Has it called no more. */
export function ignoreAbort(signal, heed) {
  const entry = heeded.get(signal);
  if (!entry?.all.delete(heed) || entry.all.size > 0) return;
  heeded.delete(signal);
  const given = ["abort", entry.listener, OPTIONS];
  for (const target of targetsOf(signal)) Reflect.apply(removeEventListener, target, given);
}

function listen(signal) {
  const all = new Set();
  const listener = () => {
    // (a page can make up an event of its own signal)
    if (!isAborted(signal)) return;
    const heeds = [...all];
    for (const heed of heeds) ignoreAbort(signal, heed);
    for (const heed of heeds) heed();
  };
  heeded.set(signal, { all, listener });
  for (const target of targetsOf(signal)) Reflect.apply(addEventListener, target, ["abort", listener, OPTIONS]);
  return heeded.get(signal);
}

/**
 * What is listened to, of which the first to be heard counts: the page's signal, since an abort is to take effect
 * before the page hears of it; and its follower, whose event comes behind that and which no page can stop. (Where both
 * are one, it takes the listener once, as any target does.)
 */
function targetsOf(signal) {
  return [signal, followerOf(signal)];
}

/** What is aborted with the page's signal: one of our own, or the page's where the platform can't make one. */
function followerOf(signal) {
  let follower = followers.get(signal);
  if (follower === undefined) {
    follower = makeFollower(signal);
    followers.set(signal, follower);
  }
  return follower;
}

/** Nobody else can reach it, and so stop its event. (Node takes an `aborted` that a page set for the signal's own.) */
function makeFollower(signal) {
  if (typeof AbortSignal.any !== "function") return signal;
  const follower = AbortSignal.any([signal]);
  return isAborted(follower) ? signal : follower;
}
