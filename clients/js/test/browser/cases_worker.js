/** Runs the cases in a worker, on the package: it is posted what it is to do, and posts the results. */

import { connect } from "../../weblocks.js";
import { connectionEnvironment } from "../standard/connections.js";
import { runCases } from "../standard/running.js";

addEventListener("message", async ({ data: { options, milliseconds } }) => {
  postMessage(await runCases(() => connectionEnvironment(connect, options), milliseconds));
});
