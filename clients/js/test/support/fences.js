/** Fencing tokens as a server with an epoch adds them to its messages, for a relay before one that has none. */

export class Fences {
  #epoch;
  #count = 0;

  /** The messages that told grants, as they were sent on. */
  told = [];

  /**
   * What stands in a message in the place of its member `fences`, by the notices that tell its grants.
   *
   * @type {(granted: {request: number}[]) => unknown}
   */
  member = (granted) => granted.map(({ request }) => ({ fence: this.#next(), request }));

  /** @param {number} epoch which counts the starts of the server */
  constructor(epoch) {
    this.#epoch = epoch;
  }

  /** A message of the server with the tokens of the grants that it tells, if it tells any. */
  addTo(text) {
    const message = JSON.parse(text);
    const granted = message.notices.filter(({ phase }) => phase === "granted");
    if (granted.length === 0) return text;
    const fenced = { fences: this.member(granted), ...message };
    this.told.push(fenced);
    return JSON.stringify(fenced);
  }

  #next() {
    this.#count += 1;
    return fenceOf(this.#epoch, this.#count);
  }
}

/** A token as text. */
export function fenceOf(epoch, count) {
  return [epoch, count].map((number) => number.toString(16).padStart(16, "0")).join("-");
}
