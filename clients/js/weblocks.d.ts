/** Locks with the behaviour of the Web Locks API, shared by all who connect to one weblocks server. */

/**
 * Connects as an agent to a server, or to a worker of the page's origin, and gives its LockManager. Rejects with
 * TypeError where an option is wrong, NetworkError where no server answers, QuotaExceededError where it has no room, or
 * SecurityError where it doesn't let this page in, or hasn't this origin.
 */
export function connect(options: ConnectOptions | PortOptions): Promise<LockManager>;

/** How to connect to a server. */
export interface ConnectOptions {
  /**
   * The server: `ws:` or `wss:`, or in Node with the package `ws` `unix:` and the path of a socket. Where it has no
   * path and no query of its own, the origin is the target of each handshake, as `/?origin=https%3A%2F%2Fa.test`.
   */
  url: string | URL;
  /** Whose locks these are: an origin, or any URL of it. In a page it is the page's own unless it is given. */
  origin?: string | undefined;
  /** A window may be made inactive, a worker is always active. In a page it is what the page is; else a window. */
  kind?: "window" | "worker" | undefined;
  /**
   * The storage bucket of the origin: 1 to 64 of `a` to `z`, `0` to `9`, `-` and `_`, the first a letter or a digit.
   * `"default"` unless given.
   */
  bucket?: string | undefined;
  /** What the server knows its clients by, where it wants that. */
  token?: string | undefined;
  /** Milliseconds between two signs of life, and how long one, or a handshake, may stay out: 10,000 unless given. */
  heartbeat?: number | undefined;
  /** Milliseconds between two polls while requests wait, where the server doesn't push: 50 unless given. */
  poll?: number | undefined;
  /** Whether to connect again after the connection was lost. True unless given. */
  reconnect?: boolean | undefined;
  /** Whether locks are to have fencing tokens, as a server gives that was started with an epoch. False unless given. */
  fences?: boolean | undefined;
  /** The class of sockets, in place of `globalThis.WebSocket` or that of the package `ws`. */
  WebSocket?: WebSocketClass | undefined;
}

/** How to connect to a worker that serves the locks of its origin's pages, in the place of a server. */
export interface PortOptions extends Omit<ConnectOptions, "url" | "token" | "poll" | "fences" | "WebSocket"> {
  /** A port of the worker, over which each connection is handed to it; or what gives one for each connection. */
  port: MessagePort | (() => MessagePort);
}

/** A class of sockets such as the platform's or that of the package `ws`. */
export type WebSocketClass = new (url: string, protocols?: any) => any;

export type LockMode = "exclusive" | "shared";

/** What a callback is given. The class is there for `instanceof`: programs make no locks. */
export class Lock {
  private constructor();
  readonly name: string;
  readonly mode: LockMode;
  /**
   * The fencing token of its grant, which compares with others as texts do; or null where the server gave none, or
   * `fences` wasn't given. Whoever wants tokens writes nothing by a lock without one.
   */
  readonly fence: string | null;
}

/** Options of a request (Web Locks, `LockOptions`). */
export interface LockOptions {
  /** `"exclusive"` unless given. */
  mode?: LockMode | undefined;
  /** If the lock isn't available now, the callback is called with null. */
  ifAvailable?: boolean | undefined;
  /** Takes the lock from whoever holds it; their promises reject with AbortError. */
  steal?: boolean | undefined;
  /** Gives up the request while it waits. */
  signal?: AbortSignal | undefined;
}

export interface LockInfo {
  name: string;
  mode: LockMode;
  clientId: string;
}

export interface LockManagerSnapshot {
  /** In the order of the grants. */
  held: LockInfo[];
  /** Queue after queue. */
  pending: LockInfo[];
}

/** An event `"lost"`. */
export class LostEvent extends Event {
  private constructor();
  /** Why: what the promises of the locks that were held are rejected with. */
  readonly reason: DOMException;
}

/** An event `"stalled"`. */
export class StalledEvent extends Event {
  private constructor();
  /** Why there is no further connection: what `connect` would reject with. */
  readonly reason: Error;
}

export interface LockManagerEventMap {
  /** The connection was lost, and with it the locks that were held. */
  lost: LostEvent;
  /**
   * A try for a further connection failed, or that was lost before it served. Requests with signals that find none
   * wait for the next one, but reject with the event's reason where that is a SecurityError.
   */
  stalled: StalledEvent;
  /** There is a connection again, and what waited waits there. */
  restored: Event;
}

/** What `connect` gives. The class is there for `instanceof`: programs connect. */
export class LockManager extends EventTarget {
  private constructor();

  /**
   * Calls the callback while the lock is held; settles as what that returned, once the lock was released.
   *
   * Rejects with TypeError for wrong arguments, NotSupportedError for a reserved name or options that exclude each
   * other, the signal's reason, QuotaExceededError at a limit, InvalidStateError where it is inactive or closed,
   * SecurityError at an opaque origin or where the server doesn't let it in any more, AbortError where the lock is
   * stolen or the manager closed, and NetworkError where the connection is lost, unless it is asked again.
   */
  request<T>(name: string, callback: (lock: Lock) => T): Promise<Awaited<T>>;
  request<T>(
    name: string,
    options: LockOptions & { ifAvailable?: false | undefined },
    callback: (lock: Lock) => T,
  ): Promise<Awaited<T>>;
  request<T>(name: string, options: LockOptions, callback: (lock: Lock | null) => T): Promise<Awaited<T>>;

  /**
   * What is held and pending, of all clients of the origin's bucket. Rejects with InvalidStateError, SecurityError,
   * AbortError or NetworkError, as `request` does.
   */
  query(): Promise<LockManagerSnapshot>;

  /** Gives up all: promises that are pending reject with AbortError. Settles as `closed`. */
  close(): Promise<Error>;

  /** Settles with why the LockManager can't be used any more. It is never rejected. */
  readonly closed: Promise<Error>;

  /**
   * Makes a window inactive, so that its requests are refused with InvalidStateError, or active again. Rejects with
   * InvalidStateError for a worker and after `close`, and with AbortError or NetworkError where the manager is closed,
   * or the connection lost, before the server has answered.
   */
  setActive(active: boolean): Promise<void>;

  /**
   * A signal that is aborted when the lock is stolen or lost while its callback runs. Throws TypeError for what isn't a
   * lock.
   */
  lostSignal(lock: Lock): AbortSignal;

  addEventListener<K extends keyof LockManagerEventMap>(
    type: K,
    listener: (this: LockManager, event: LockManagerEventMap[K]) => unknown,
    options?: boolean | AddEventListenerOptions,
  ): void;
  addEventListener(
    type: string,
    listener: EventListenerOrEventListenerObject | null,
    options?: boolean | AddEventListenerOptions,
  ): void;
  removeEventListener<K extends keyof LockManagerEventMap>(
    type: K,
    listener: (this: LockManager, event: LockManagerEventMap[K]) => unknown,
    options?: boolean | EventListenerOptions,
  ): void;
  removeEventListener(
    type: string,
    listener: EventListenerOrEventListenerObject | null,
    options?: boolean | EventListenerOptions,
  ): void;
}
