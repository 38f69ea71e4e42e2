/** The standard's cases in Node, on the package. */

import { test } from "node:test";

import { connect } from "../weblocks.js";
import { byName, testEach } from "./browser/comparing.js";
import { FAST } from "./browser/settings.js";
import { connectionEnvironment } from "./standard/connections.js";
import { runCases } from "./standard/running.js";
import { startPolled, startPushing } from "./support/servers.js";
import { WebSocket } from "./support/sockets.js";

async function testInNode(it, options) {
  const results = await runCases(() => connectionEnvironment(connect, { WebSocket, ...options }));
  await testEach(it, byName(results));
}

test("the standard's cases in Node, over a server that is polled", async (it) => {
  const { url } = await startPolled(it);
  await testInNode(it, { url, ...FAST });
});

test("the standard's cases in Node, over a server that pushes", async (it) => {
  const { url } = await startPushing(it);
  await testInNode(it, { url });
});
