/** A browser, and a server of the files that its pages load, for all tests of a file. */

import { after, before } from "node:test";

import { Chromium } from "./chromium.js";
import { serveFiles } from "./files.js";

/** Starts both before the tests of the file that calls it, and ends them after those; until then they are null. */
export function useChromium() {
  const used = { chromium: null, files: null };
  before(async () => {
    used.files = await serveFiles();
    used.chromium = await Chromium.start();
  });
  after(async () => {
    await Promise.all([used.files, used.chromium].map((it) => it?.end()));
  });
  return used;
}
