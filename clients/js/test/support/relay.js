/**
 * A relay of the tests before a server: it hands each connection's messages on to one of its own, and what comes there
 * back. It writes down what it was sent and what handshakes offered, and may be deaf, slow or wrong.
 */

import { once } from "node:events";
import { createServer } from "node:http";
import { WebSocket, WebSocketServer } from "./sockets.js";

const PUSH = "weblocks.push";
const FENCE = "weblocks.fence";
const BEARER = "weblocks.bearer.";

export class Relay {
  #server;
  #backend;
  #token;
  #path;
  #http;
  #links = new Set();

  /** Each message of a client, in the order in which they came: `{link, message}`, the link being a number. */
  received = [];

  /** What each handshake offered, and its target. */
  offers = [];

  /** How many connections there were. */
  links = 0;

  /** Whether messages are read, and answered by nothing; and of which connections alone, those beyond this number. */
  isDeaf = false;
  deafBeyond = Infinity;

  /** For how many connections there is a place. */
  places = Infinity;

  /** How many milliseconds each reply is held back. */
  delay = 0;

  /** Ends each connection that opens an agent with this close code, where it is set. */
  closeCode = null;

  /** What each message is answered, where it is set. */
  answer = null;

  /** What each message is refused with, where it is set. */
  refusal = null;

  /** The only target that is taken, where it is set. */
  target = null;

  /** The statuses that the next handshakes are refused with, one each. */
  statuses = [];

  /** What adds fencing tokens for the clients that ask for them, where it is set. */
  fences = null;

  /**
   * @param {string} backend the URL of the server, which pushes
   * @param {{token?: string, selects?: boolean, fences?: import("./fences.js").Fences, path?: string}} [options] what
   *   clients are to be known by; whether `weblocks.push` is selected: where it isn't, nothing is pushed; what adds
   *   fencing tokens; the path of the Unix socket where it listens, in the place of a port
   */
  static async start(backend, options = {}) {
    const server = new Relay(backend, options);
    await server.#listen();
    return server;
  }

  constructor(backend, { token, selects = true, fences = null, path }) {
    this.#backend = backend;
    this.#token = token;
    this.#path = path;
    this.selects = selects;
    this.fences = fences;
  }

  async #listen() {
    this.#http = createServer();
    this.#server = new WebSocketServer({
      server: this.#http,
      handleProtocols: (offered) => this.#select(offered),
      verifyClient: ({ req }, answer) => this.#verify(req, answer),
    });
    this.#server.on("connection", (socket) => this.#serve(socket));
    this.#http.listen(this.#path ?? { host: "127.0.0.1", port: 0 });
    await once(this.#http, "listening");
    this.port = this.#http.address().port;
    this.url = this.#path === undefined ? `ws://127.0.0.1:${this.port}` : `unix:${this.#path}`;
  }

  /** The messages' words, in the order in which they came. */
  get ops() {
    return this.received.map(({ message }) => message.op);
  }

  /** How many connections are open. */
  get open() {
    return this.#links.size;
  }

  /** Ends all connections with a close code, as a server that ends does. */
  closeAll(code, text) {
    for (const link of this.#links) link.socket.close(code, text);
  }

  /** The open connection of this number, the first being 1. */
  link(number) {
    return [...this.#links].find((link) => link.number === number);
  }

  /** Pushes notices to all clients. */
  pushToAll(notices) {
    for (const link of this.#links) link.push(notices);
  }

  async stop() {
    for (const link of this.#links) link.socket.terminate();
    this.#server.close();
    this.#http.close();
    await once(this.#http, "close");
  }

  #select(offered) {
    if (!this.selects || !offered.has(PUSH)) return false;
    return this.fences !== null && offered.has(FENCE) ? FENCE : PUSH;
  }

  #verify(request, answer) {
    const offered = (request.headers["sec-websocket-protocol"] ?? "").split(",").map((text) => text.trim());
    const { authorization } = request.headers;
    this.offers.push({ protocols: offered.filter(Boolean), authorization, target: request.url });
    const isKnown = offered.includes(BEARER + this.#token) || authorization === `Bearer ${this.#token}`;
    if (this.statuses.length > 0) answer(false, this.statuses.shift());
    else if (this.open >= this.places) answer(false, 503);
    else if (this.target !== null && request.url !== this.target) answer(false, 400);
    else answer(this.#token === undefined || isKnown, 401);
  }

  #serve(socket) {
    this.links += 1;
    const backend = new WebSocket(this.#backend, this.selects ? [PUSH] : []);
    const link = new Link(this.links, socket, backend, this);
    this.#links.add(link);
    socket.on("close", () => this.#links.delete(link));
  }
}

/** One connection of a client, and the one to the server. */
class Link {
  #backend;
  #server;
  #fences;
  #early = [];
  #heldBack = null;

  constructor(number, socket, backend, server) {
    this.number = number;
    this.socket = socket;
    this.#backend = backend;
    this.#server = server;
    // (that of its handshake: the next connection's may be another)
    this.#fences = socket.protocol === FENCE ? server.fences : null;
    socket.on("message", (data) => this.#take(String(data)));
    socket.on("close", () => this.#end());
    socket.on("error", () => {});
    backend.on("open", () => this.#begin());
    backend.on("message", (data) => this.#give(String(data)));
    backend.on("close", () => this.#lose());
    backend.on("error", () => {});
  }

  #take(text) {
    const message = JSON.parse(text);
    this.#server.received.push({ link: this.number, message });
    if (this.#server.isDeaf || this.number > this.#server.deafBeyond) return;
    const own = this.#server.answer ?? this.#refuse(message.id);
    if (own !== null) {
      this.socket.send(own);
      return;
    }
    if (message.op === "open" && this.#server.closeCode !== null) {
      this.socket.close(this.#server.closeCode);
    } else if (this.#backend.readyState === WebSocket.OPEN) {
      this.#backend.send(text);
    } else {
      this.#early.push(text);
    }
  }

  #refuse(id) {
    const { refusal } = this.#server;
    return refusal === null ? null : JSON.stringify({ error: refusal, id, notices: [] });
  }

  #begin() {
    for (const text of this.#early) this.#backend.send(text);
  }

  #give(said) {
    const text = this.#fences?.addTo(said) ?? said;
    if (this.#heldBack !== null) this.#heldBack.push(text);
    else if (this.#server.delay === 0) this.socket.send(text);
    else setTimeout(() => this.socket.send(text), this.#server.delay);
  }

  /** Keeps what is for the client, until `letGo`. */
  holdBack() {
    this.#heldBack = [];
  }

  letGo() {
    const texts = this.#heldBack;
    this.#heldBack = null;
    for (const text of texts) this.socket.send(text);
  }

  /** Cuts the connection, of which both sides are told. */
  cut() {
    this.socket.terminate();
  }

  /** Tells the client what it didn't ask for. */
  push(notices) {
    this.socket.send(JSON.stringify({ id: null, notices, ok: {} }));
  }

  #lose() {
    this.socket.terminate();
  }

  #end() {
    this.#backend.close();
  }
}
