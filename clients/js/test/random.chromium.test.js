/** Random steps, of which the same comes on Chromium's own locks, on the package and on the polyfill's. */

import assert from "node:assert/strict";
import { test } from "node:test";

import { connect } from "../weblocks.js";
import { callInPage } from "./browser/comparing.js";
import { ALL_ORIGINS, FAST } from "./browser/settings.js";
import { useChromium } from "./browser/using.js";
import { connectionEnvironment } from "./standard/connections.js";
import { logOfSteps } from "./standard/random_steps.js";
import { startPolled, startPushing } from "./support/servers.js";
import { WebSocket } from "./support/sockets.js";

/** What the steps are determined by. The numbers mean nothing; whoever looks for more may take others. */
const SEEDS = [7919, 104_729, 1_299_709, 15_485_863, 2_038_074_743];
const STEPS = 50;

const used = useChromium();

async function logInNode(options, seed) {
  const environment = connectionEnvironment(connect, { WebSocket, ...options });
  try {
    return await logOfSteps(environment, seed, STEPS);
  } finally {
    await environment.end();
  }
}

for (const seed of SEEDS) {
  test(`of ${STEPS} random steps the same comes everywhere, by the seed ${seed}`, async (it) => {
    const [polled, pushing] = [await startPolled(it), await startPushing(it, ALL_ORIGINS)];
    const logInPage = (name, options) =>
      callInPage(used.chromium, used.files.url, "logOfStepsOn", name, options, seed, STEPS);
    const wanted = await logInPage("browser", null);
    assert.deepEqual(await logInNode({ url: polled.url, ...FAST }, seed), wanted, "in Node, polled");
    assert.deepEqual(await logInNode({ url: pushing.url }, seed), wanted, "in Node, pushed");
    assert.deepEqual(await logInPage("package", { url: polled.url, ...FAST }), wanted, "the package, polled");
    assert.deepEqual(await logInPage("polyfill", { url: pushing.url }), wanted, "the polyfill, pushed");
  });
}
