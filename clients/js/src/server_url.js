/**
 * Where handshakes go: the server's URL, and as the target the origin, by which a proxy or a server that has only some
 * of the origins tells whether it is one of its own.
 */

import { isNode } from "./platform.js";

const UNIX = "unix:";

/** How the package `ws` spells a Unix socket: its path, a colon, and the target. */
const UNIX_OF_WS = "ws+unix:";

/**
 * Reads the URL of a server, of which a class of sockets is to be made.
 *
 * The target is `/?origin=` and the origin's serialization, but where the URL has a path or a query of its own, or the
 * origin is opaque or can't be read.
 *
 * @param {unknown} given `ws:` or `wss:`, or `unix:` and the path of a socket
 * @param {string} origin an origin, or any URL of it
 * @returns {string}
 * @throws {TypeError} where it is no such URL, or here are no Unix sockets
 */
export function readServerUrl(given, origin) {
  if (given === undefined) throw new TypeError("The url of the server is missing");
  const text = String(given);
  if (text.startsWith(UNIX)) return readUnix(text.slice(UNIX.length), queryOf(origin));
  const url = parse(text);
  if (url === null || (url.protocol !== "ws:" && url.protocol !== "wss:") || url.hash !== "") {
    throw new TypeError(
      `'${text}' isn't the URL of a WebSocket: it begins with ws: or wss: and has no fragment, or with unix:`,
    );
  }
  if (url.pathname === "/" && url.search === "") url.search = queryOf(origin);
  return url.href;
}

/** Whether a URL that was read is that of a Unix socket. */
export function isUnix(url) {
  return url.startsWith(UNIX_OF_WS);
}

/** `ws` takes the path as it stands in the URL, and ends it at a colon. */
function readUnix(given, query) {
  if (!isNode()) throw new TypeError("A page has no Unix sockets: the url begins with ws: or wss:");
  const path = given.replace(/^\/+/, "/");
  const url = parse(`${UNIX_OF_WS}${path}:/${query}`);
  if (path === "" || path.includes(":") || url?.pathname !== `${path}:/`) {
    const why = "its path has only what a URL leaves as it is, and no colon";
    throw new TypeError(`'${UNIX}${given}' names no socket: ${why}`);
  }
  return url.href;
}

function queryOf(origin) {
  const tuple = parse(origin)?.origin ?? "null";
  return tuple === "null" ? "" : `?origin=${encodeURIComponent(tuple)}`;
}

function parse(text) {
  try {
    return new URL(text);
  } catch {
    return null;
  }
}
