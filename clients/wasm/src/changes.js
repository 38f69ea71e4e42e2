/** What an agent's messages and replies tell of its requests, and of those of others. */

/** The phases with which a request has ended. */
const ENDS = ["unavailable", "aborted", "stolen"];

/** How many requests of one agent are live, by what it was told: only while there are some may one change. */
export class LiveRequests {
  #count = 0;

  /** Whether any is live. */
  get areThere() {
    return this.#count > 0;
  }

  /** Takes note of a reply or a push. */
  hear({ ok, notices }) {
    if (ok?.request !== undefined) this.#count += 1;
    if (ok?.release === "released") this.#count -= 1;
    for (const { phase } of notices) {
      if (ENDS.includes(phase)) this.#count -= 1;
    }
  }

  /** The agent has ended. */
  clear() {
    this.#count = 0;
  }
}

/**
 * Reads a message or a reply.
 *
 * @returns {object | null} null where the text is no JSON object
 */
export function readObject(text) {
  try {
    const value = JSON.parse(text);
    return typeof value === "object" ? value : null;
  } catch {
    return null;
  }
}

/** Whether what was done may change others' requests: they wait behind what was released, or held what was stolen. */
export function mayTouchOthers(message, { error }) {
  if (message === null || error !== undefined) return false;
  switch (message.op) {
    case "release":
    case "abort":
    case "close":
      return true;
    case "request":
      return message.options?.steal === true;
    default:
      return false;
  }
}
