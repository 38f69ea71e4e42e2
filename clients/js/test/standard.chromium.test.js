/** The standard's cases in Chromium: on its own locks, on the package as it stands, and on the polyfill's. */

import { test } from "node:test";

import { byName, callInPage, resultsInPage, testEach, testEachBut } from "./browser/comparing.js";
import { ALL_ORIGINS, FAST } from "./browser/settings.js";
import { useChromium } from "./browser/using.js";
import { CHROMIUM_VERSION, chromiumDeviations } from "./standard/deviations.js";
import { startPolled, startPushing } from "./support/servers.js";

/** What a case may take on the browser's own locks: two deviations are such that it never ends. */
const BROWSER_MILLISECONDS = 5000;

const used = useChromium();

test("the standard's cases in Chromium, on its own navigator.locks", async (it) => {
  const version = await used.chromium.version();
  it.diagnostic(version);
  const results = await resultsInPage(used.chromium, used.files.url, "browser", null, BROWSER_MILLISECONDS);
  await testEachBut(it, results, chromiumDeviations, version.includes(`/${CHROMIUM_VERSION}.`));
});

for (const name of ["package", "polyfill"]) {
  test(`the standard's cases in Chromium, on the ${name}, over a server that is polled`, async (it) => {
    const { url } = await startPolled(it);
    await testEach(it, await resultsInPage(used.chromium, used.files.url, name, { url, ...FAST }));
  });

  test(`the standard's cases in Chromium, on the ${name}, over a server that pushes`, async (it) => {
    const { url } = await startPushing(it, ALL_ORIGINS);
    await testEach(it, await resultsInPage(used.chromium, used.files.url, name, { url }));
  });
}

test("the standard's cases in a worker of Chromium, on the package, over a server that pushes", async (it) => {
  const { url } = await startPushing(it, ALL_ORIGINS);
  // (only a window can be made inactive, as two cases have it)
  const options = { url, kind: "window" };
  await testEach(it, byName(await callInPage(used.chromium, used.files.url, "runCasesInWorker", options)));
});
