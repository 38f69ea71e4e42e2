/** One port, behind which an agent is: its texts are messages, and objects are of the connection itself. */

import { LiveRequests } from "./changes.js";

export class Peer {
  #port;
  #listeners;
  #isOver = false;

  /** What the engine knows it by. */
  agent;

  /** Its requests. */
  requests = new LiveRequests();

  /**
   * @param {MessagePort} port
   * @param {string} agent
   * @param {{onMessage: (peer: Peer, text: string) => void, onConnect: (port: MessagePort) => void,
   *   onHold: (peer: Peer, lock: string) => void, onSign: (peer: Peer) => void, onEnd: (peer: Peer) => void}} listeners
   *   `onSign` is called with all that comes, and `onEnd` where it ended by itself
   */
  constructor(port, agent, listeners) {
    this.#port = port;
    this.#listeners = listeners;
    this.agent = agent;
  }

  /** Says that it is served, and reads what comes from now on, and has come. */
  open() {
    this.#port.onmessage = (event) => this.#read(event);
    // (where the platform tells of a port's end)
    this.#port.addEventListener("close", () => this.#listeners.onEnd(this));
    this.#port.postMessage({ type: "open" });
  }

  /** Sends a reply or a push. */
  tell(text) {
    if (!this.#isOver) this.#port.postMessage(text);
  }

  /** Asks for a sign of life. */
  ping() {
    this.#port.postMessage({ type: "ping" });
  }

  /** Ends it, and says why by a close code as those of WebSockets. */
  close(code, reason) {
    if (this.#isOver) return;
    this.#isOver = true;
    this.#port.postMessage({ type: "close", code, reason });
    this.#port.onmessage = null;
    this.#port.close();
  }

  /**
   * Ends it as `close` does, but for what is handed over by its port: a page may have sent that before it hears of the
   * end, and is to be told by its own connection.
   */
  fail(code, reason) {
    if (this.#isOver) return;
    this.#isOver = true;
    this.#port.postMessage({ type: "close", code, reason });
    this.#port.onmessage = (event) => this.#takeOver(event);
  }

  #takeOver({ data, ports }) {
    if (data?.type !== "connect") return;
    for (const port of ports) this.#listeners.onConnect(port);
  }

  #read(event) {
    const { data } = event;
    this.#listeners.onSign(this);
    if (typeof data === "string") {
      this.#listeners.onMessage(this, data);
      return;
    }
    switch (data?.type) {
      case "connect":
        this.#takeOver(event);
        break;
      case "hold":
        this.#listeners.onHold(this, String(data.lock));
        break;
      case "close":
        this.#listeners.onEnd(this);
        break;
    }
  }
}
