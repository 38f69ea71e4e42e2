/** What the server sends: replies, and pushes, which nobody asked for. */

/** A fencing token: its epoch and its counter, so written that texts compare as tokens do. */
const FENCE = /^[0-9a-f]{16}-[0-9a-f]{16}$/;

const NO_FENCES = new Map();

/**
 * Reads a message of the server.
 *
 * @param {unknown} data what the socket brought
 * @returns {{id: number | null, ok?: object, error?: {name: string, rule: string}, notices: object[]}} a push has the
 *   id null
 * @throws {TypeError} where it is none
 */
export function readReply(data) {
  if (typeof data !== "string") throw new TypeError("a message that isn't text");
  const reply = parse(data);
  if (typeof reply !== "object" || reply === null) throw new TypeError("a message that isn't an object");
  if (!Array.isArray(reply.notices)) throw new TypeError("a message without notices");
  if (!isObject(reply.ok) && !isObject(reply.error)) throw new TypeError("a message without ok or error");
  return reply;
}

/**
 * Reads the fencing tokens that a message has beside its notices, where the server was asked for them.
 *
 * @param {{fences?: unknown}} reply as `readReply` gives it
 * @returns {Map<number, string>} by the numbers of the requests that were granted
 * @throws {TypeError} where one is malformed: whoever wrote by it could write over what is newer
 */
export function readFences({ fences }) {
  if (fences === undefined) return NO_FENCES;
  if (!Array.isArray(fences)) throw new TypeError("a message whose fences aren't a list");
  return new Map(fences.map(readFence));
}

/** Whether a message is a push. (A fault may have the id null too: it answers what had none.) */
export function isPush(reply) {
  return reply.id === null && reply.error === undefined;
}

function readFence(entry) {
  if (!isObject(entry) || !Number.isSafeInteger(entry.request)) throw new TypeError("a fence of no request");
  if (typeof entry.fence !== "string" || !FENCE.test(entry.fence)) throw new TypeError("a malformed fence");
  return [entry.request, entry.fence];
}

function parse(text) {
  try {
    return JSON.parse(text);
  } catch {
    throw new TypeError("a message that isn't JSON");
  }
}

function isObject(value) {
  return typeof value === "object" && value !== null;
}
