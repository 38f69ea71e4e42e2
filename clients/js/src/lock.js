/** What callbacks are given (Web Locks, `Lock`). */

const MAKING = Symbol("making");

/**
 * What holds a lock, or undefined for what isn't one.
 *
 * @type {(lock: unknown) => object | undefined}
 */
export let holderOf;

export class Lock {
  #name;
  #mode;
  #fence;
  #holder;

  /** Pages make no locks: they request them. */
  constructor(key, { name, mode, fence } = {}, holder) {
    if (key !== MAKING) throw new TypeError("Illegal constructor");
    this.#name = name;
    this.#mode = mode;
    this.#fence = fence;
    this.#holder = holder;
  }

  /** The name that was asked for. */
  get name() {
    return this.#name;
  }

  /** `"exclusive"` or `"shared"`. */
  get mode() {
    return this.#mode;
  }

  /** The fencing token of its grant, or null where the server gave none. It isn't the standard's. */
  get fence() {
    return this.#fence;
  }

  static {
    holderOf = (lock) => (isObject(lock) && #holder in lock ? lock.#holder : undefined);
  }
}

// (`fence` stays unlisted: a lock shows the members that the platform's shows)
showAsPlatformObject(Lock, ["name", "mode"]);

/**
 * A lock that is held by what is given, a call.
 *
 * @param {{name: string, mode: string, fence: string | null}} members
 * @param {object} holder
 */
export function makeLock(members, holder) {
  return new Lock(MAKING, members, holder);
}

function isObject(value) {
  return typeof value === "object" && value !== null;
}

/** Gives a class's members and objects the looks that Web IDL gives those of an interface. */
export function showAsPlatformObject(made, members) {
  const visible = { enumerable: true };
  Object.defineProperties(made.prototype, Object.fromEntries(members.map((member) => [member, visible])));
  Object.defineProperty(made.prototype, Symbol.toStringTag, { value: made.name, configurable: true });
}
