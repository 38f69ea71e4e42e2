/**
 * What a call of `request` asks for, read from its arguments as Web IDL says, in its order, and refused as the
 * standard says, in its order (Web Locks, `LockManager.request`).
 */

import { abortReason, isAborted } from "./aborts.js";
import { notSupportedError } from "./faults.js";
import { escapeName } from "./names.js";

const MODES = ["shared", "exclusive"];

/**
 * Converts the arguments of `request(name, callback)` or `request(name, options, callback)`.
 *
 * @param {ArrayLike<unknown>} given
 * @returns {{name: string, wireName: string, ifAvailable: boolean, mode: string, signal: AbortSignal | undefined,
 *   steal: boolean, callback: Function}} `wireName` is the name as it goes over the wire
 * @throws {TypeError} where one of them can't be converted, or what a page's own getter or `toString` throws
 */
export function readArguments(given) {
  if (given.length < 2) {
    throw new TypeError(`request wants a name and a callback: ${given.length} arguments were given`);
  }
  const name = toText(given[0]);
  const options = given.length === 2 ? undefined : given[1];
  const { ifAvailable, mode, signal, steal } = readOptions(options);
  const callback = given.length === 2 ? given[1] : given[2];
  if (typeof callback !== "function") throw new TypeError("The callback isn't a function");
  return { name, wireName: escapeName(name), ifAvailable, mode, signal, steal, callback };
}

/** The refusal that the standard has for what was read, or null: of the name, the options, and then the signal. */
export function refusalOfCall({ name, ifAvailable, mode, signal, steal }) {
  if (name.startsWith("-")) return { reason: notSupportedError("Names that start with '-' are reserved") };
  if (steal && ifAvailable) return { reason: notSupportedError("steal and ifAvailable can't be used together") };
  if (steal && mode !== "exclusive") return { reason: notSupportedError("Only exclusive locks can be stolen") };
  if (signal !== undefined && (steal || ifAvailable)) {
    return { reason: notSupportedError("A signal can't be used with steal or ifAvailable") };
  }
  if (signal !== undefined && isAborted(signal)) return { reason: abortReason(signal) };
  return null;
}

/** A dictionary's members are read in the order of their names. */
function readOptions(options) {
  if (options === undefined || options === null) {
    return { ifAvailable: false, mode: "exclusive", signal: undefined, steal: false };
  }
  if (typeof options !== "object" && typeof options !== "function") {
    throw new TypeError("The options aren't an object");
  }
  const ifAvailable = Boolean(options.ifAvailable);
  const mode = toMode(options.mode);
  const signal = toSignal(options.signal);
  const steal = Boolean(options.steal);
  return { ifAvailable, mode, signal, steal };
}

/** ToString, of which a symbol has none. */
function toText(value) {
  if (typeof value === "symbol") throw new TypeError("A symbol can't be converted to a string");
  return String(value);
}

function toMode(value) {
  if (value === undefined) return "exclusive";
  const mode = toText(value);
  if (!MODES.includes(mode)) throw new TypeError(`The mode '${mode}' is neither 'exclusive' nor 'shared'`);
  return mode;
}

function toSignal(value) {
  if (value === undefined) return undefined;
  try {
    isAborted(value);
  } catch {
    throw new TypeError("The signal isn't an AbortSignal");
  }
  return value;
}
