/** The engines that the tests are run on: the module where it is built, and the program. */

import { existsSync } from "node:fs";
import { readFile } from "node:fs/promises";
import { fileURLToPath } from "node:url";
import { setFlagsFromString } from "node:v8";
import { Engine, loadModule } from "../../engine.js";
import { PipedEngine } from "./piped.js";

/** The program: the repository's own, unless another is named. */
export const PROGRAM = process.env.WEBLOCKS_PROGRAM || fileURLToPath(new URL("../../../../weblocks", import.meta.url));

const MODULES = ["../../weblocks.wasm", "../../../../dist/weblocks.wasm"].map((it) =>
  fileURLToPath(new URL(it, import.meta.url)),
);

/** The module: the one that is named, or that clients/wasm/build makes where none is named, or the shipped one. */
export const MODULE = process.env.WEBLOCKS_MODULE || (MODULES.find((it) => existsSync(it)) ?? MODULES[0]);

/** Whether the module is built. */
export const hasModule = existsSync(MODULE);

/** The module's bytes. */
export function moduleBytes() {
  return readFile(MODULE);
}

/**
 * The module, where this Node takes it, else null: 64-bit memories are behind a flag before version 24, and version 20
 * has no tables with 64-bit indices.
 */
async function compile() {
  if (Number(process.versions.node.split(".")[0]) < 24) setFlagsFromString("--experimental-wasm-memory64");
  try {
    return await loadModule(await moduleBytes());
  } catch (fault) {
    if (fault instanceof WebAssembly.CompileError) return null;
    throw fault;
  }
}

const module = hasModule ? await compile() : null;

/** What makes an engine for a test, by its name; the test ends it. */
export const ENGINES = {
  program(t) {
    const engine = new PipedEngine(PROGRAM);
    t.after(() => engine.end());
    return engine;
  },
  ...(module !== null && { module: () => new Engine(module) }),
};
