/**
 * What the cases expect, without the help of Node or of a page: each function throws an `Error` that says what was
 * found in place of what was wanted.
 */

/** The codes that Web IDL gives to the names of exceptions (Web IDL, *DOMException names*); all others have 0. */
const CODES = {
  NotSupportedError: 9,
  InvalidStateError: 11,
  SecurityError: 18,
  AbortError: 20,
  TimeoutError: 23,
};

/** A value as a reader of a report wants it. */
export function show(value) {
  if (typeof value === "string") {
    return JSON.stringify(value);
  }
  if (typeof value === "object" && value !== null && "message" in value) {
    return `${value.name}: ${value.message}`;
  }
  if (typeof value === "object" && value !== null) {
    return JSON.stringify(value) ?? Object.prototype.toString.call(value);
  }
  return String(value);
}

/** Both are one value: the same object, or equal primitives (`NaN` is `NaN`, and `-0` isn't `0`). */
export function expectSame(what, found, wanted) {
  if (!Object.is(found, wanted)) {
    throw new Error(`${what} is ${show(found)} and not ${show(wanted)}`);
  }
}

/** Both have one JSON text. Lone surrogates are told apart in it, and so is the order of members. */
export function expectEqual(what, found, wanted) {
  const [one, other] = [found, wanted].map((it) => JSON.stringify(it));
  if (one !== other) {
    throw new Error(`${what} is ${one} and not ${other}`);
  }
}

export function expectTrue(what, found) {
  expectSame(what, found, true);
}

/** How a promise ends: `{ value }` or `{ reason }`. */
export async function outcome(promise) {
  try {
    return { value: await promise };
  } catch (reason) {
    return { reason };
  }
}

/** What the promise rejects with. */
export async function rejection(what, promise) {
  const ended = await outcome(promise);
  if (!("reason" in ended)) {
    throw new Error(`${what} was fulfilled with ${show(ended.value)}, and was to be rejected`);
  }
  return ended.reason;
}

/** The value is a `TypeError` of this realm. */
export function expectTypeError(what, found, realm) {
  if (!(found instanceof realm.TypeError)) {
    throw new Error(`${what} is ${show(found)} and no TypeError`);
  }
}

/** The value is a `DOMException` of this realm, with this name and its code. */
export function expectException(what, found, realm, name) {
  if (!(found instanceof realm.DOMException)) {
    throw new Error(`${what} is ${show(found)} and no DOMException`);
  }
  expectSame(`the name of ${what}`, found.name, name);
  expectSame(`the code of ${what}`, found.code, CODES[name] ?? 0);
}
