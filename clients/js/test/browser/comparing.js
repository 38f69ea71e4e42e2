/** Has the cases run in a page of Chromium, and makes a test of each of its results. */

import assert from "node:assert/strict";

import { cases } from "../standard/cases.js";

/** What all cases of one run may take. */
const RUN_MILLISECONDS = 600_000;

/** Calls a function of a new page `cases.html`, and answers what it gives once nothing went unnoticed in the page. */
export async function callInPage(chromium, filesUrl, called, ...given) {
  const page = await chromium.open(`${filesUrl}/test/browser/cases.html`);
  const words = given.map((it) => JSON.stringify(it) ?? "undefined").join(", ");
  const found = await page.evaluate(`${called}(${words})`, RUN_MILLISECONDS);
  assert.deepEqual(page.faults, [], "errors that nobody caught in the page");
  return found;
}

/** Runs the cases in a page, on what `cases.html` has by this name, and answers each one's result by its name. */
export async function resultsInPage(chromium, filesUrl, name, options, milliseconds) {
  return byName(await callInPage(chromium, filesUrl, "runCasesOn", name, options, milliseconds));
}

/** The results by the names of their cases, which are all cases. */
export function byName(results) {
  assert.deepEqual(results.map((it) => it.name), cases.map((it) => it.name));
  return new Map(results.map((it) => [it.name, it]));
}

/** A test for each case, which passes where the case did. */
export async function testEach(test, results) {
  for (const { name } of cases) {
    await test.test(name, () => {
      const { fault } = results.get(name);
      assert.equal(fault, null);
    });
  }
}

/**
 * A test for each case, which passes where the case did just if it isn't among these deviations.
 *
 * Of a browser's version in which they weren't seen (`areOfVersion` is false), what differs from them is only told: a
 * browser mends its faults and makes new ones, and none of that is a fault of the cases.
 */
export async function testEachBut(test, results, deviations, areOfVersion) {
  for (const { name } of cases) {
    await test.test(name, (it) => {
      const { fault } = results.get(name);
      const deviation = deviations.get(name);
      const differs = differenceFrom(deviation, fault);
      if (deviation && fault !== null) {
        it.diagnostic(`deviates (${deviation.section}): it ${deviation.does}. Seen: ${fault}`);
      } else if (differs !== null && areOfVersion) {
        assert.fail(differs);
      } else if (differs !== null) {
        it.diagnostic(`deviates otherwise than the version that is known: ${differs}`);
      }
    });
  }
}

/** How a case's fault differs from what is said of it, or null. */
function differenceFrom(deviation, fault) {
  if (deviation === undefined) return fault;
  return fault === null && !deviation.isByChance ? "it is said to deviate here, and does no longer" : null;
}
