/**
 * The signals of one agent of the service.
 *
 * An agent makes 1,024 of them for life. One that was aborted is used up; another serves one page's signal after the
 * other, each for as long as a request with it waits.
 */

/** How many signals an agent may make (docs/MACHINE.md, limits of a manager). */
export const SIGNALS_OF_AGENT = 1024;

export class SignalSupply {
  #ready = [];
  #asked = 0;
  #made = 0;
  #lent = new Map();
  #ask;
  #limit = SIGNALS_OF_AGENT;

  /** @param {(answered: (number: number | null) => void) => void} ask has the service make a signal */
  constructor(ask) {
    this.#ask = ask;
  }

  /** How many signals the agent may still have for its requests, those included that are ready or asked for. */
  get left() {
    return this.#limit - this.#made + this.#ready.length;
  }

  /** Asks for signals until so many are ready or asked for, or none is left. `changed` is called when one came. */
  provide(count, changed) {
    while (this.#ready.length + this.#asked < count && this.#made + this.#asked < this.#limit) {
      this.#asked += 1;
      this.#ask((number) => {
        this.#asked -= 1;
        if (number === null) this.#limit = this.#made;
        else {
          this.#made += 1;
          this.#ready.push(number);
        }
        changed();
      });
    }
  }

  /** Whether the page's signal has one of the service's now. */
  isLent(signal) {
    return this.#lent.has(signal);
  }

  /** Lends the service's signal that stands for the page's, or null where none is ready. */
  lend(signal) {
    const lent = this.#lent.get(signal);
    if (lent !== undefined) {
      lent.users += 1;
      return lent;
    }
    const number = this.#ready.pop();
    if (number === undefined) return null;
    const loan = { signal, number, users: 1, isAborted: false };
    this.#lent.set(signal, loan);
    return loan;
  }

  /** Takes back what was lent to one request. The last one's return makes it ready again, unless it was aborted. */
  takeBack(loan) {
    loan.users -= 1;
    if (loan.users > 0) return;
    this.#lent.delete(loan.signal);
    if (!loan.isAborted) this.#ready.push(loan.number);
  }
}
