/** A service in Node, and LockManagers over its ports. */

import { connect } from "../../../js/weblocks.js";
import { Service } from "../../service.js";

/** A port to a service. */
export function doorTo(t, service) {
  const { port1, port2 } = new MessageChannel();
  service.serve(port2);
  t.after(() => port1.close());
  return port1;
}

/** A service over this engine. */
export function serve(engine, options) {
  return new Service(() => engine, options);
}

/** A LockManager of the service; the test closes it. */
export async function connectTo(t, door, options = {}) {
  const locks = await connect({ port: door, origin: "https://a.test", ...options });
  t.after(() => locks.close());
  return locks;
}

/** A port that speaks the protocol by hand: what it was told, and what waits for the next text. */
export class RawPort {
  #port;
  #waiting = [];

  texts = [];
  objects = [];

  /** Connects by a channel through the door, or by the door itself. */
  constructor(t, door) {
    const { port1, port2 } = new MessageChannel();
    this.#port = port1;
    port1.onmessage = ({ data }) => this.#take(data);
    door.postMessage({ type: "connect" }, [port2]);
    t.after(() => port1.close());
  }

  #take(data) {
    if (typeof data !== "string") {
      this.objects.push(data);
      return;
    }
    this.texts.push(data);
    this.#waiting.shift()?.(data);
  }

  /** Sends what it is given. */
  post(data) {
    this.#port.postMessage(data);
  }

  /** Sends a text, and gives the next one that comes. */
  ask(text) {
    const answer = this.next();
    this.#port.postMessage(text);
    return answer;
  }

  /** The next text that comes. */
  next() {
    return new Promise((resolve) => this.#waiting.push(resolve));
  }

  /** Closes the port, and says nothing. */
  vanish() {
    this.#port.close();
  }
}
