/** What `connect` and `install` are given, checked and with its defaults. */

import { readServerUrl } from "./server_url.js";

const KINDS = ["window", "worker"];
const BUCKET = /^[a-z0-9][a-z0-9_-]{0,63}$/;
const BUCKET_RULE = "1 to 64 of a-z, 0-9, - and _, the first a letter or a digit";
const TOKEN = /^[!#$%&'*+\-.^_`|~0-9A-Za-z]+$/;
const MESSAGE_BYTES = 65536;

/** A heartbeat each 10 seconds, unless another number of milliseconds is given. */
const HEARTBEAT = 10_000;

/** Where the server doesn't push, a poll each 50 milliseconds while a request waits. */
const POLL = 50;

/**
 * Reads the options.
 *
 * @param {object} options as `ConnectOptions` in weblocks.d.ts says
 * @returns {{url: string | undefined, port: object | Function | undefined, origin: string, kind: string,
 *   bucket: string, token: string | undefined, heartbeat: number, poll: number, reconnect: boolean, fences: boolean,
 *   WebSocket: Function | undefined}}
 * @throws {TypeError} where an option is missing or wrong
 */
export function readSettings(options) {
  if (typeof options !== "object" || options === null) throw new TypeError("The options aren't an object");
  const { heartbeat = HEARTBEAT, poll = POLL, reconnect = true, fences = false, WebSocket } = options;
  if (typeof reconnect !== "boolean") throw new TypeError("reconnect is neither true nor false");
  if (typeof fences !== "boolean") throw new TypeError("fences is neither true nor false");
  if (WebSocket !== undefined && typeof WebSocket !== "function") throw new TypeError("WebSocket isn't a class");
  const origin = readOrigin(options.origin);
  return {
    ...readServer(options, origin),
    origin,
    kind: readKind(options.kind),
    bucket: readBucket(options.bucket),
    token: readToken(options.token),
    heartbeat: readTime("heartbeat", heartbeat),
    poll: readTime("poll", poll),
    reconnect,
    fences,
    WebSocket,
  };
}

/** The message by which an agent opens. */
export function openMessage({ origin, kind, bucket }) {
  return { op: "open", url: origin, kind, bucket };
}

/** Whether an origin's locks are nobody's: that of a `data:` URL or a file, say. */
export function isOpaque({ origin }) {
  try {
    return new URL(origin).origin === "null";
  } catch {
    return false;
  }
}

/** The server is named by its URL, or else it is a worker behind a port. */
function readServer({ url, port, token }, origin) {
  if (port === undefined) return { url: readServerUrl(url, origin), port };
  if (url !== undefined) throw new TypeError("The options have both a url and a port");
  if (token !== undefined) throw new TypeError("A token is for a server with a url, and not for a port");
  if (typeof port !== "function" && typeof port?.postMessage !== "function") {
    throw new TypeError("port is neither a MessagePort nor a function that gives one");
  }
  return { url, port };
}

/** An opaque origin is serialized as `null`, which is no URL: any `data:` URL has such an origin too. */
function readOrigin(given = globalThis.origin) {
  if (given === undefined) throw new TypeError("The origin is missing, and here is no page that has one");
  const origin = String(given);
  if (new TextEncoder().encode(JSON.stringify(origin)).length > MESSAGE_BYTES / 2) {
    throw new TypeError("The origin is too long for a message");
  }
  return origin === "null" ? "data:," : origin;
}

function readKind(given) {
  if (given === undefined) return typeof WorkerGlobalScope === "undefined" ? "window" : "worker";
  if (!KINDS.includes(given)) throw new TypeError(`The kind '${given}' is neither 'window' nor 'worker'`);
  return given;
}

function readBucket(given = "default") {
  const bucket = String(given);
  if (!BUCKET.test(bucket)) throw new TypeError(`'${bucket}' can't be the name of a bucket: ${BUCKET_RULE}`);
  return bucket;
}

function readToken(given) {
  if (given === undefined) return undefined;
  const token = String(given);
  if (!TOKEN.test(token)) throw new TypeError("The token has characters that can't be sent in a handshake");
  return token;
}

/** Timers take milliseconds up to 2^31 - 1. */
function readTime(name, given) {
  if (!Number.isFinite(given) || given < 1 || given > 0x7fff_ffff) {
    throw new TypeError(`${name} isn't a number of milliseconds from 1 to 2147483647`);
  }
  return given;
}
