/** Patience: how long an answer is waited for. */

import { runAsTask } from "./tasks.js";

/** What it is counted in. A time in which the event loop stood still is one of them. */
const PARTS = 4;

/**
 * Calls a function once, so many milliseconds later. A time in which the event loop stood still, as for a page's own
 * long script, counts as a quarter of that at most, since what came in it is still to be read.
 *
 * @returns {() => void} what has it not called any more
 */
export function losePatience(milliseconds, lose) {
  let parts = 0;
  let isOver = false;
  const stop = () => {
    isOver = true;
    clearInterval(timer);
  };
  const end = () => {
    if (isOver) return;
    stop();
    lose();
  };
  const timer = setInterval(() => {
    parts += 1;
    // (what has come by now, though it wasn't read yet, comes first)
    if (parts === PARTS) runAsTask(end);
  }, milliseconds / PARTS);
  return stop;
}
