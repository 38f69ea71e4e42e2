/** Pages of one origin in Chromium, which share the locks of a SharedWorker. */

import { after, before } from "node:test";
import { fileURLToPath } from "node:url";
import { Chromium } from "../../../js/test/browser/chromium.js";
import { serveFiles } from "../../../js/test/browser/files.js";
import { PROGRAM, hasModule, moduleBytes } from "../support/engines.js";
import { PipedEngine } from "../support/piped.js";

const CLIENTS = fileURLToPath(new URL("../../../", import.meta.url));

/** The worker, by the name of the engine that it has. */
export const WORKERS = { module: "/wasm/worker.js", program: "/wasm/test/browser/piped_worker.js" };

/** A host by which the browser takes the pages for those of an insecure context, which has no locks of its own. */
const INSECURE = "weblocks.test";

/** The body of a request, as text. */
async function textOf(request) {
  const pieces = [];
  for await (const piece of request) pieces.push(piece);
  return Buffer.concat(pieces).toString();
}

/** The program in the module's place: each worker has one of its own, by the number that it is given. */
class Programs {
  #engines = [];

  /** What answers the requests of workers, by their paths. */
  get pages() {
    return {
      "/engines": () => {
        this.#engines.push(new PipedEngine(PROGRAM));
        return String(this.#engines.length - 1);
      },
      "/engine": async (request) => {
        const number = new URL(request.url, "http://localhost").searchParams.get("number");
        return this.#engines[number].answer(await textOf(request));
      },
    };
  }

  end() {
    for (const engine of this.#engines) engine.end();
  }
}

/** A browser and its pages, for all tests of a file. */
export class Pages {
  #chromium;
  #files;
  #programs = new Programs();
  #more;

  constructor(more) {
    this.#more = more;
  }

  /** To be called once, before the tests of a file, with further pages by their paths. */
  static use(more = {}) {
    const pages = new Pages(more);
    before(() => pages.#start());
    after(() => pages.#end());
    return pages;
  }

  /** The names of the engines that there are in a page. */
  static engines = Object.keys(WORKERS).filter((name) => name !== "module" || hasModule);

  async #start() {
    const module = hasModule && { "/wasm/weblocks.wasm": await moduleBytes() };
    this.#files = await serveFiles(CLIENTS, { ...this.#programs.pages, ...module, ...this.#more });
    this.#chromium = await Chromium.start({ flags: [`--host-resolver-rules=MAP ${INSECURE} 127.0.0.1`] });
  }

  async #end() {
    await this.#chromium?.end();
    await this.#files?.end();
    this.#programs.end();
  }

  /** The URL of a page in which nothing is done, of the origin of secure pages. */
  get blankUrl() {
    return `${this.#files.url}/js/test/browser/agent.html`;
  }

  /** Opens that page. */
  openBlank() {
    return this.#chromium.open(this.blankUrl);
  }

  /** Opens a page of that origin. */
  openAt(path) {
    return this.#chromium.open(this.#files.url + path);
  }

  /** Opens a page that has connected to the worker of its origin. */
  async open(engine, { isSecure = true } = {}) {
    const url = isSecure ? this.#files.url : this.#files.url.replace("127.0.0.1", INSECURE);
    const page = await this.#chromium.open(`${url}/wasm/test/browser/page.html?worker=${WORKERS[engine]}`);
    await page.evaluate("ready");
    return page;
  }

  /** Ends the workers of all origins from within, of which nobody is told. Gives how many there were. */
  async endWorkers() {
    const { targetInfos } = await this.#chromium.call("Target.getTargets");
    const workers = targetInfos.filter(({ type }) => type === "shared_worker");
    for (const { targetId } of workers) await this.#chromium.evaluateIn(targetId, "close()");
    return workers.length;
  }
}
