/** Waiting between tries to connect. */

const SHORTEST = 100;
const LONGEST = 10_000;

/**
 * How many milliseconds to wait before a try: from the first on twice as long each time, up to ten seconds, less a
 * random part of up to a half, so that the clients of a server that comes back don't all come at once.
 *
 * @param {number} tries how many failed
 * @param {() => number} random from 0 to below 1
 */
export function delayAfter(tries, random = Math.random) {
  const whole = Math.min(LONGEST, SHORTEST * 2 ** tries);
  return whole * (1 - random() / 2);
}

/** Waits so many milliseconds, or until the signal is aborted, whose reason it then rejects with. */
export function wait(time, signal) {
  return new Promise((resolve, reject) => {
    if (signal.aborted) return reject(signal.reason);
    const giveUp = () => {
      clearTimeout(timer);
      reject(signal.reason);
    };
    const timer = setTimeout(() => {
      signal.removeEventListener("abort", giveUp);
      resolve();
    }, time);
    signal.addEventListener("abort", giveUp, { once: true });
  });
}
