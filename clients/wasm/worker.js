/**
 * A SharedWorker that is the lock service of all pages of its origin:
 * `new SharedWorker("/weblocks/worker.js", { type: "module" })`.
 */

import { Engine, loadModule } from "./engine.js";
import { Service } from "./service.js";

const MODULE = new URL("weblocks.wasm", import.meta.url);

/** The service, once the module is there. A page that comes after a failure has it loaded again. */
let loading = null;

function load() {
  loading ??= loadModule(MODULE).then(
    (module) => new Service(() => new Engine(module)),
    (fault) => {
      loading = null;
      return new Service(() => {
        throw fault;
      });
    },
  );
  return loading;
}

globalThis.onconnect = async ({ ports: [port] }) => {
  const service = await load();
  service.serve(port);
};
