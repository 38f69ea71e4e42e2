/** The package `ws`, wherever this machine has it: beside the package, on NODE_PATH, or as Debian's node-ws. */

import { createRequire } from "node:module";

const require = createRequire(import.meta.url);

function load() {
  for (const place of ["ws", "/usr/share/nodejs/ws"]) {
    try {
      return require(place);
    } catch (fault) {
      if (fault.code !== "MODULE_NOT_FOUND") throw fault;
    }
  }
  throw new Error("The tests need the package ws: apt-get install node-ws");
}

const ws = load();

/** The client's class of sockets. */
export const WebSocket = ws.WebSocket ?? ws;

/** The server's. */
export const { WebSocketServer } = ws;
