/** A proxy between client and server, which may swallow all bytes, as a network does that drops packets. */

import { once } from "node:events";
import { connect, createServer } from "node:net";

export class Proxy {
  #server;
  #pairs = new Set();

  /** Whether bytes are swallowed, of either way, on connections old and new. Nobody is told. */
  swallows = false;

  /** @param {{port: number}} behind the server that it stands before */
  static async start(t, behind) {
    const proxy = new Proxy(behind.port);
    await proxy.#listen();
    t.after(() => proxy.stop());
    return proxy;
  }

  constructor(port) {
    this.#server = createServer((client) => this.#join(client, connect(port, "127.0.0.1")));
  }

  async #listen() {
    this.#server.listen(0, "127.0.0.1");
    await once(this.#server, "listening");
    this.url = `ws://127.0.0.1:${this.#server.address().port}`;
  }

  /** Cuts all connections, of which both sides are told. */
  cut() {
    for (const pair of this.#pairs) for (const socket of pair) socket.destroy();
  }

  stop() {
    this.cut();
    this.#server.close();
  }

  #join(client, server) {
    const pair = [client, server];
    this.#pairs.add(pair);
    this.#carry(client, server);
    this.#carry(server, client);
    client.on("close", () => this.#pairs.delete(pair));
  }

  #carry(from, to) {
    from.on("data", (bytes) => {
      if (!this.swallows) to.write(bytes);
    });
    from.on("end", () => {
      if (!this.swallows) to.end();
    });
    from.on("close", () => {
      if (!this.swallows) to.destroy();
    });
    from.on("error", () => {});
  }
}
