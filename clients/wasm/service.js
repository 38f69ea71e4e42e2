/**
 * The lock service of an origin's pages: each port is an agent of one engine's world, and speaks the clients' protocol.
 *
 * What a message changes for other agents is pushed to them: after it each agent that has a live request is polled in
 * the engine, and a reply with notices is its push.
 */

import { Life } from "./src/life.js";
import { isTooLong, lineOf, MESSAGE_BYTES } from "./src/line.js";
import { mayTouchOthers, readObject } from "./src/changes.js";
import { Peer } from "./src/peer.js";

/** Close codes of WebSockets (RFC 6455, section 7.4.1). */
const NORMAL = 1000;
const GONE = 1006;
const TOO_LONG = 1009;
const FAILED = 1011;

const POLL = '{"id":0,"op":"poll"}';
const CLOSE = '{"id":0,"op":"close"}';
const ID = '"id":0';
const NO_NEWS = '{"id":0,"notices":[],"ok":{}}';

export class Service {
  #makeEngine;
  #engine = null;
  #life;
  #peers = new Set();
  #lastAgent = 0;

  /**
   * @param {() => {answer: (line: string) => string}} makeEngine called for the first port, and again after an engine
   *   that failed: its world is gone, and all ports with it
   * @param {{locks?: LockManager, round?: number}} [options] as those of `Life`
   */
  constructor(makeEngine, options) {
    this.#makeEngine = makeEngine;
    this.#life = new Life((peer) => this.#end(peer, GONE, "no sign of life"), options);
  }

  /** How many ports are served. */
  get size() {
    return this.#peers.size;
  }

  /**
   * Serves a port until it ends. A port that is handed over by it is served too, as another agent. One that says
   * nothing itself need give no signs of life.
   */
  serve(port) {
    this.#lastAgent += 1;
    const peer = new Peer(port, String(this.#lastAgent), {
      onMessage: (from, text) => this.#inOrder(() => this.#answer(from, text)),
      onConnect: (given) => this.serve(given),
      onHold: (from, lock) => this.#life.hold(from, lock),
      onSign: (from) => this.#life.hear(from),
      onEnd: (from) => this.#end(from, NORMAL, ""),
    });
    this.#peers.add(peer);
    this.#inOrder(() => {
      this.#engine ??= this.#makeEngine();
      peer.open();
    });
  }

  #answer(peer, text) {
    this.#life.watch(peer);
    if (isTooLong(text)) {
      this.#end(peer, TOO_LONG, `a message has more than ${MESSAGE_BYTES} bytes`);
      return;
    }
    const reply = this.#engine.answer(lineOf(peer.agent, text));
    peer.tell(reply);
    const said = readObject(text);
    const told = readObject(reply);
    peer.requests.hear(told);
    if (said?.op === "close" && told.error === undefined) peer.requests.clear();
    if (mayTouchOthers(said, told)) this.#push(peer);
  }

  /** Tells the others what has become of their requests. */
  #push(but) {
    for (const peer of this.#peers) {
      if (peer === but || !peer.requests.areThere) continue;
      const reply = this.#engine.answer(lineOf(peer.agent, POLL));
      if (reply === NO_NEWS) continue;
      const push = reply.replace(ID, '"id":null');
      peer.requests.hear(readObject(push));
      peer.tell(push);
    }
  }

  /** A port has ended, or is to: its agent's locks pass on. */
  #end(peer, code, reason) {
    if (!this.#peers.delete(peer)) return;
    this.#life.forget(peer);
    peer.close(code, reason);
    this.#inOrder(() => {
      this.#engine.answer(lineOf(peer.agent, CLOSE));
      this.#push(peer);
    });
  }

  /** An engine that failed has lost what all agents had. Whoever connects later finds a new one. */
  #inOrder(run) {
    try {
      run();
    } catch (fault) {
      this.#engine = null;
      const peers = [...this.#peers];
      this.#peers.clear();
      for (const peer of peers) {
        this.#life.forget(peer);
        peer.fail(FAILED, fault.message);
      }
    }
  }
}
