/** What stands for a daemon with --status where a test says itself what `/locks` answers. */

import { once } from "node:events";
import { readFile } from "node:fs/promises";
import { createServer } from "node:http";

/** The crate's copy of the page, and of its policy, as `tools/put_page` wrote them. */
const SOURCE = new URL("../../crates/wl_status/src/page.rt", import.meta.url);

async function readPage() {
  const text = await readFile(SOURCE, "utf8");
  const [, page] = /^pub const PAGE: &str = r##"(.*?)"##;$/ms.exec(text);
  const [, policy] = /^pub const POLICY: &str =\s+"(.*)";$/m.exec(text);
  return { page, policy };
}

/** A row of `/locks`: of a request that was asked for and, if it is held, granted so many seconds ago. */
export function row(name, client, { mode = "exclusive", request = 1, asked = 1, granted } = {}) {
  const times = granted === undefined ? { since_asked: asked } : { since_asked: asked, since_granted: granted };
  return { client: `client-${client}`, mode, name, request, ...times };
}

function aged(row, seconds) {
  const times = { since_asked: row.since_asked + seconds };
  if ("since_granted" in row) times.since_granted = row.since_granted + seconds;
  return { ...row, ...times };
}

/** A manager of `/locks`. */
export function manager(origin, { bucket = "default", held = [], pending = [], leftOut = 0 }) {
  return { bucket, held, left_out: leftOut, origin, pending };
}

/** A server of the page on 127.0.0.1. */
export class StandIn {
  #server;
  #served;
  /** What `/locks` answers: a status, and a text, or a function that gives a value. */
  answer = null;
  /** The targets that were asked for. */
  targets = [];

  /** Starts one, on a free port unless one is named, which the test stops. */
  static async start(t, port = 0) {
    const made = new StandIn();
    made.show([]);
    made.#served = await readPage();
    made.#server = createServer((request, response) => made.#respond(request, response));
    made.#server.listen(port, "127.0.0.1");
    await once(made.#server, "listening");
    t.after(() => made.stop());
    return made;
  }

  get port() {
    return this.#server.address().port;
  }

  get url() {
    return `http://127.0.0.1:${this.port}/`;
  }

  /** Has `/locks` answer these managers, whose requests get older from now on. */
  show(managers, leftOut = { managers: 0, rows: 0 }) {
    const since = performance.now();
    const older = (rows) => rows.map((it) => aged(it, (performance.now() - since) / 1000));
    const now = () => managers.map((it) => ({ ...it, held: older(it.held), pending: older(it.pending) }));
    this.answer = { status: 200, body: () => ({ left_out: leftOut, managers: now() }) };
  }

  #respond({ url }, response) {
    this.targets.push(url);
    const common = { "Cache-Control": "no-store", "X-Content-Type-Options": "nosniff" };
    if (url === "/") {
      const headers = { "Content-Type": "text/html; charset=utf-8", "Content-Security-Policy": this.#served.policy };
      response.writeHead(200, { ...common, ...headers }).end(this.#served.page);
    } else if (url.split("?")[0] === "/locks") {
      const { status, body } = this.answer;
      response.writeHead(status, { ...common, "Content-Type": "application/json" });
      response.end(typeof body === "string" ? body : JSON.stringify(body()));
    } else {
      response.writeHead(404, common).end();
    }
  }

  async stop() {
    if (!this.#server.listening) return;
    const closed = once(this.#server, "close");
    this.#server.close();
    this.#server.closeAllConnections();
    await closed;
  }
}
