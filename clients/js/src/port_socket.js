/**
 * A connection to a worker of the page's origin, with the members of a WebSocket that a client uses.
 *
 * It is a message channel, whose other end is handed to the worker over a port of the worker's. Texts are the messages
 * of the clients' protocol; what else is said about the connection itself are objects, as docs/CLIENTS.md has them.
 */

import { holdPageLock } from "./page_lock.js";
import { CLOSED, CONNECTING, OPEN } from "./states.js";

/** The code of an end of which nothing was said (RFC 6455, section 7.1.5). */
const NOTHING_SAID = 1006;

export class PortSocket {
  #port;

  onopen = null;
  onmessage = null;
  onclose = null;
  onerror = null;
  readyState = CONNECTING;

  /** @param {MessagePort | (() => MessagePort)} door a port of the worker, or what gives one */
  constructor(door) {
    // What may throw comes before anything listens: what listens would stay, and keep Node from its end.
    const port = typeof door === "function" ? door() : door;
    const { port1, port2 } = new MessageChannel();
    port.postMessage({ type: "connect" }, [port2]);
    this.#port = port1;
    port1.onmessage = ({ data }) => this.#read(data);
    // (where the platform tells of a port's end)
    port1.addEventListener("close", () => this.#end(NOTHING_SAID, ""));
    globalThis.addEventListener?.("pagehide", this.#leave);
  }

  /** Sends a text. */
  send(text) {
    if (this.readyState === OPEN) this.#port.postMessage(text);
  }

  /** Ends the connection. The worker is told, behind what was sent before. */
  close() {
    if (this.readyState === CLOSED) return;
    this.#port.postMessage({ type: "close" });
    this.#cut();
  }

  #read(data) {
    if (typeof data === "string") {
      this.onmessage?.({ data });
      return;
    }
    switch (data?.type) {
      case "open":
        this.#begin();
        break;
      case "ping":
        this.#port.postMessage({ type: "pong" });
        break;
      case "close":
        this.#end(data.code, data.reason);
        break;
    }
  }

  async #begin() {
    this.readyState = OPEN;
    this.onopen?.();
    const lock = await holdPageLock();
    if (lock !== null && this.readyState === OPEN) this.#port.postMessage({ type: "hold", lock });
  }

  /** The browser may keep a page that is left, with all that it holds, so that it may come back: its locks pass on. */
  #leave = () => {
    this.#port.postMessage({ type: "close" });
    this.#end(NOTHING_SAID, "");
  };

  #end(code, reason) {
    if (this.readyState === CLOSED) return;
    this.#cut();
    this.onclose?.({ code, reason });
  }

  #cut() {
    this.readyState = CLOSED;
    this.#port.close();
    globalThis.removeEventListener?.("pagehide", this.#leave);
  }
}
