/** A socket to the server, of whichever class there is or over a port, and what the server tells over it unasked. */

import { networkError, securityError } from "./faults.js";
import { losePatience } from "./patience.js";
import { isNode } from "./platform.js";
import { PortSocket } from "./port_socket.js";
import { isUnix } from "./server_url.js";

/** The subprotocol of servers that tell what changed without being asked. */
const PUSH = "weblocks.push";

/** That of servers that do so, and tell of each grant its fencing token. */
const FENCE = "weblocks.fence";

/** What stands before a token, where it is offered as a subprotocol. */
const BEARER = "weblocks.bearer.";

/** How the package `ws` tells of a server that answers a handshake by another status than is wanted. */
const STATUS = / response: (\d{3})$/;

/** A word that Node's classes of sockets have where a server took the handshake, and selected no subprotocol. */
const UNSELECTED = /protocol/;

/** The status of a handshake that isn't taken as it is, as of an origin that isn't the server's. */
const REFUSED = "400";

/** How the status of a server begins that can't serve now, as 503, or of a proxy that finds none, as 502. */
const UNABLE = "5";

/** What a server means by its status. */
const MEANINGS = {
  401: "it wants a token, of those that it knows (status 401)",
  503: "it has no place for a further connection (status 503)",
};

/** What is said where the class of sockets says nothing, as a browser's. */
const NOTHING_SAID = "its handshake failed (a page isn't told why: nobody may listen there, or it wants another token)";

/** A handshake that fails whatever it offers: nobody answers, or the server can't serve now. */
class Unserved extends DOMException {
  constructor(message) {
    super(message, "NetworkError");
  }
}

/** A handshake of which the class of sockets doesn't tell why it failed, as a browser's: maybe for a moment alone. */
class Unexplained extends DOMException {
  constructor(message) {
    super(message, "NetworkError");
  }
}

/**
 * Opens a socket, over the port of a worker where there is one, which pushes.
 *
 * @param {object} settings as `readSettings` gives them
 * @param {AbortSignal} signal gives up
 * @returns {Promise<{socket: WebSocket | PortSocket, pushes: boolean, fences: boolean}>}
 */
export async function openSocket(settings, signal) {
  const { port, heartbeat } = settings;
  if (port === undefined) return openWebSocket(settings, signal);
  const socket = await shakeHands(() => new PortSocket(port), heartbeat, signal);
  return { socket, pushes: true, fences: false };
}

/**
 * Pushes are asked for first; where that handshake is refused, a second one offers no subprotocol, and a server that
 * takes that one is polled.
 */
async function openWebSocket(settings, signal) {
  const Socket = await chooseSocket(settings);
  try {
    return await openOffering(Socket, settings, signal);
  } catch (fault) {
    if (signal.aborted || isSettled(fault) || (settings.token !== undefined && !isNode())) throw fault;
    const plain = await openPolled(Socket, settings, signal);
    return fault instanceof Unexplained ? offerAgain(plain.socket, Socket, settings, signal) : plain;
  }
}

async function openOffering(Socket, settings, signal) {
  const create = () => makeSocket(Socket, settings.url, offeredBy(settings));
  const socket = await shakeHands(create, settings.heartbeat, signal);
  const fences = socket.protocol === FENCE;
  return { socket, pushes: fences || socket.protocol === PUSH, fences };
}

async function openPolled(Socket, { url, token, heartbeat }, signal) {
  const socket = await shakeHands(() => openPlain(Socket, url, token), heartbeat, signal);
  return { socket, pushes: false, fences: false };
}

/**
 * A server that took a plain handshake may push all the same, and have had no place for the first one, say: it would be
 * polled, and give no fencing tokens, for as long as the connection lasts. So it is asked once more, when it has got
 * the plain one's place back, which may be its last.
 */
async function offerAgain(plain, Socket, settings, signal) {
  await closeSocket(plain, settings.heartbeat);
  try {
    return await openOffering(Socket, settings, signal);
  } catch (fault) {
    if (signal.aborted || isSettled(fault)) throw fault;
    return openPolled(Socket, settings, signal);
  }
}

/** Closes a socket, and waits until the server knows, unless that takes too long. */
function closeSocket(socket, patience) {
  return new Promise((resolve) => {
    const cancel = losePatience(patience, () => {
      cutSocket(socket);
      resolve();
    });
    socket.onclose = () => {
      cancel();
      resolve();
    };
    socket.close(1000);
  });
}

/** Whether a second handshake would fail as the first one did. */
function isSettled(fault) {
  return fault instanceof Unserved || fault instanceof TypeError;
}

/** The subprotocols of the first handshake, of which the server selects one. */
function offeredBy({ fences, token }) {
  const offered = fences ? [FENCE, PUSH] : [PUSH];
  return token === undefined ? offered : [...offered, BEARER + token];
}

/** Ends a socket at once where its class can: closing waits for a peer that may be gone. */
export function cutSocket(socket) {
  if (typeof socket.terminate === "function") socket.terminate();
  else socket.close();
}

/** Sockets of the platform can be no Unix sockets. */
async function chooseSocket({ url, WebSocket: given }) {
  const own = isUnix(url) ? undefined : globalThis.WebSocket;
  return given ?? own ?? (await loadSocket(url));
}

/** The package `ws`, of this project's folders or else of those that Node's `require` looks in too, as a system's. */
async function loadSocket(url) {
  try {
    return (await import("ws")).WebSocket;
  } catch {
    const { createRequire } = await import("node:module");
    try {
      return createRequire(import.meta.url)("ws");
    } catch {
      if (isUnix(url)) throw noUnixSockets();
      throw new TypeError(
        "Here is no WebSocket, as Node has from version 22 on: install the package ws, name the folder of a system's " +
          "by NODE_PATH, or give a class as the option WebSocket",
      );
    }
  }
}

function noUnixSockets(cause) {
  return new TypeError(
    "A Unix socket wants the package ws: install it, or give its class as the option WebSocket", { cause },
  );
}

/** A class that has no form for Unix sockets, as Node's own, takes their URL for a wrong one. */
function makeSocket(Socket, url, ...more) {
  try {
    return new Socket(url, ...more);
  } catch (fault) {
    throw isUnix(url) ? noUnixSockets(fault) : fault;
  }
}

/** A browser's sockets send no headers of the page's choice; those of Node do. */
function openPlain(Socket, url, token) {
  if (token === undefined) return makeSocket(Socket, url);
  return makeSocket(Socket, url, { headers: { Authorization: `Bearer ${token}` } });
}

function shakeHands(create, patience, signal) {
  return new Promise((resolve, reject) => {
    signal.throwIfAborted();
    const socket = create();
    const fail = (fault) => {
      finish();
      cutSocket(socket);
      reject(fault);
    };
    const giveUp = () => fail(networkError("Connecting was given up"));
    const expire = () => fail(new Unserved(`No server answered in ${patience} ms`));
    const cancel = losePatience(patience, expire);
    const finish = () => {
      cancel();
      signal.removeEventListener("abort", giveUp);
      forget(socket);
    };
    signal.addEventListener("abort", giveUp);
    socket.onopen = () => {
      finish();
      resolve(socket);
    };
    socket.onerror = (event) => fail(faultOfHandshake(event, socket.url));
    socket.onclose = ({ code, reason }) => fail(faultOfEnd(code, reason));
  });
}

/** An error with such a code is the system's, or of TLS: nobody answered. (That of several addresses says no more.) */
function faultOfHandshake({ message: said, error }, url) {
  if (typeof error?.code === "string") return new Unserved(`No connection to the server: ${said || error.code}`);
  const text = said || NOTHING_SAID;
  const status = STATUS.exec(text)?.[1];
  if (status === REFUSED) return securityError(`The server refused the handshake for ${url}: ${text}`);
  const message = `No connection to the server: ${MEANINGS[status] ?? text}`;
  if (status?.startsWith(UNABLE)) return new Unserved(message);
  return status === undefined && !UNSELECTED.test(text) ? new Unexplained(message) : networkError(message);
}

function faultOfEnd(code, reason) {
  const told = reason ? `: ${reason}` : "";
  return new Unexplained(`The server closed the connection (close code ${code})${told}`);
}

/** A socket of `ws` throws what it has no listener of errors for. */
function forget(socket) {
  socket.onopen = null;
  socket.onmessage = null;
  socket.onclose = null;
  socket.onerror = () => {};
}
