/** The standard's cases in Node, on the client over a port of the service. */

import { test } from "node:test";
import { byName, testEach } from "../../js/test/browser/comparing.js";
import { connectionEnvironment } from "../../js/test/standard/connections.js";
import { runCases } from "../../js/test/standard/running.js";
import { connect } from "../../js/weblocks.js";
import { ENGINES } from "./support/engines.js";
import { doorTo, serve } from "./support/serving.js";

for (const [name, make] of Object.entries(ENGINES)) {
  test(`the standard's cases in Node, over a port (${name})`, async (t) => {
    const door = doorTo(t, serve(await make(t)));
    const results = await runCases(() => connectionEnvironment(connect, { port: door }));
    await testEach(t, byName(results));
  });
}
