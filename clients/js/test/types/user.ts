// A user's program, as tsc checks it. Each line below an @ts-expect-error must be wrong.

import { connect, Lock, LockManager, LostEvent, StalledEvent } from "weblocks";
import type { LockInfo, LockMode } from "weblocks";
import { install } from "weblocks/polyfill";
import { startServer, useServer } from "weblocks/testing";

const locks: LockManager = await connect({
  url: new URL("ws://127.0.0.1:8080"),
  origin: "https://a.test",
  kind: "window",
  bucket: "default",
  token: undefined,
  heartbeat: 10_000,
  poll: 50,
  reconnect: true,
  fences: true,
  WebSocket,
});

const local: LockManager = await connect({ url: "unix:/run/weblocks/socket", origin: "https://a.test" });

const worker = new SharedWorker("/wasm/worker.js", { type: "module" });
const paged: LockManager = await connect({ port: worker.port, heartbeat: 5000 });
const again: LockManager = await connect({ port: () => worker.port, origin: "https://a.test", bucket: "inbox" });

const name: string = await locks.request("db", (lock) => lock.name);
const mode: LockMode = await locks.request("db", { mode: "shared" }, async (lock: Lock) => lock.mode);
const fence: string | null = await locks.request("db", (lock) => lock.fence);
const got: boolean = await locks.request("db", { ifAvailable: true }, (lock) => lock !== null);
const nothing: void = await locks.request("db", { signal: new AbortController().signal }, () => {});
const stolen: number = await locks.request("db", { steal: true }, (lock) => lock.name.length);

const { held, pending } = await locks.query();
const infos: LockInfo[] = [...held, ...pending];
const why: Error = await locks.closed;

locks.addEventListener("lost", (event) => console.log(event.reason.name, event instanceof LostEvent));
locks.addEventListener("stalled", (event) => console.log(event.reason.name, event instanceof StalledEvent));
locks.addEventListener("restored", (event: Event) => console.log(event.type));
await locks.request("db", (lock) => {
  const lost: AbortSignal = locks.lostSignal(lock);
  lost.throwIfAborted();
});

const thing: unknown = locks;
const manager: LockManager | null = thing instanceof LockManager ? thing : null;
const given: Lock | null = await locks.request("db", (lock: unknown) => (lock instanceof Lock ? lock : null));
const unlocked: string = await locks.request("db", { ifAvailable: true }, (lock) => {
  return lock instanceof Lock ? lock.name : "none";
});
const reason: DOMException | null = thing instanceof LostEvent ? thing.reason : null;
const standIn: Lock = { name: "db", mode: "shared", fence: null };
await locks.setActive(false);
await locks.close();

const installed: LockManager = install({ url: "wss://locks.example/" });
const installedByPort: LockManager = install({ port: worker.port });
const platform: Pick<globalThis.LockManager, "query"> = installed;

const server = useServer({ program: "./weblocks", words: ["--idle", "5"] });
const agent: LockManager = await server.connect({ kind: "worker" });
const started = await startServer({ port: 8080 });
const port: number = started.port;
await started.kill();
await started.stop();

export { again, agent, fence, given, got, infos, installedByPort, manager, mode, name, nothing, paged, platform, port };
export { reason, standIn, stolen, unlocked, why };

// @ts-expect-error
await connect({ origin: "https://a.test" });
// @ts-expect-error
await connect({ port: 8080 });
// @ts-expect-error
await connect({ url: "ws://127.0.0.1:8080", kind: "page" });
// @ts-expect-error
await locks.request("db");
// @ts-expect-error
await locks.request("db", { mode: "odd" }, () => {});
// @ts-expect-error
await locks.request("db", { ifAvailable: true }, (lock) => lock.name);
// @ts-expect-error
new LockManager();
// @ts-expect-error
new Lock();
// @ts-expect-error
Lock();
// @ts-expect-error
class OwnManager extends LockManager {}
// @ts-expect-error
if (thing instanceof LockManager) thing.name;
// @ts-expect-error
if (thing instanceof Lock) thing.query();
// @ts-expect-error
await connect({ url: "ws://127.0.0.1:8080", fences: "yes" });
// @ts-expect-error
await locks.request("db", (lock) => lock.fence.length);
// @ts-expect-error
locks.lostSignal("db");
