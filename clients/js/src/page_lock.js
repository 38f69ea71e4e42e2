/**
 * A lock of the browser's own that this page or worker holds for as long as it lives.
 *
 * A port tells nobody that the page behind it was closed or killed. The browser passes this lock on at that moment,
 * whatever became of the page's timers before; and a worker that waits for it learns so.
 */

/** The browser's own, also where a polyfill takes its place later; undefined where there are none. */
const locks = globalThis.navigator?.locks;

let held = null;

/** Holds the lock, and gives its name, which no other page has; or null where the browser has no locks for the page. */
export function holdPageLock() {
  held ??= take();
  return held;
}

function take() {
  if (locks === undefined) return Promise.resolve(null);
  const name = `weblocks-page-${crypto.randomUUID()}`;
  return new Promise((resolve) => {
    const forGood = () => {
      resolve(name);
      return new Promise(() => {});
    };
    locks.request(name, forGood).catch(() => resolve(null));
  });
}
