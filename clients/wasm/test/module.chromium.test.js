/** The module in Chromium: the worked scripts give their bytes, a line at a time, and the heap keeps its blocks. */

import assert from "node:assert/strict";
import { readFileSync, readdirSync } from "node:fs";
import { test } from "node:test";
import { fileURLToPath } from "node:url";
import { Pages } from "./browser/pages.js";
import { hasModule } from "./support/engines.js";

const SCRIPTS = fileURLToPath(new URL("../../../tests/scripts/", import.meta.url));

const NAMES = readdirSync(SCRIPTS)
  .filter((name) => name.endsWith(".in"))
  .map((name) => name.slice(0, -".in".length));

const skip = hasModule ? false : "the module isn't built: clients/wasm/build builds it";

const pages = Pages.use();
let page;

/** What a function of the page's steps answers. */
async function call(module, name, ...given) {
  page ??= await pages.openBlank();
  const words = given.map((it) => JSON.stringify(it)).join();
  return page.evaluate(`import("/wasm/test/browser/${module}.js").then((steps) => steps.${name}(${words}))`);
}

/**
 * The lines of a script as the program takes them: a last one without LF is a line if it has a byte. Each is a text, or
 * where it is none the list of its bytes.
 */
function linesOf(script) {
  const lines = script.toString("latin1").split("\n");
  if (lines.at(-1) === "") lines.pop();
  return lines.map((line) => {
    const bytes = Buffer.from(line, "latin1");
    const text = bytes.toString();
    return Buffer.from(text).equals(bytes) ? text : [...bytes];
  });
}

for (const name of NAMES) {
  const [script, out, audit] = ["in", "out", "audit"].map((kind) => readFileSync(`${SCRIPTS}${name}.${kind}`));
  test(`the script ${name.replaceAll("_", " ")}`, { skip }, async () => {
    const said = await call("module_steps", "runScript", linesOf(script));
    assert.deepEqual(said, { out: out.toString(), audit: audit.toString() });
  });
}

test("a line that is too long, or has an LF, is refused, and so is an audit without books", { skip }, async () => {
  const said = await call("module_steps", "refuseLines");
  assert.deepEqual(said, [
    [true, "a line has more than 65536 bytes", false],
    [true, "a line has more than 65536 bytes", false],
    [true, "a line has more than 65536 bytes", false],
    [true, "a line has an LF", false],
    [true, "the engine keeps no books", false],
    '{"id":2,"notices":[],"ok":{}}',
  ]);
});

test("the seed shows in no reply", { skip }, async () => {
  const lines = linesOf(readFileSync(`${SCRIPTS}${NAMES[0]}.in`));
  const said = [];
  for (const byte of [0, 255]) said.push(await call("module_steps", "runScript", lines, byte));
  assert.deepEqual(said[0], said[1]);
});

test("a hundred thousand cycles leave the memory as it was", { skip }, async () => {
  assert.equal(await call("module_steps", "growthOfCycles", 100_000), 0);
});

for (const seed of [1, 2, 3]) {
  test(`20,000 random steps on the heap (${seed})`, { skip }, async () => {
    assert.ok((await call("heap_steps", "stepAtRandom", seed, 20_000)) > 0);
  });
}

test("what was given back is used again", { skip }, async () => {
  assert.equal(await call("heap_steps", "growthOfReuse"), 0);
});

test("what can't be had is told, and a block that can't grow stays as it was", { skip }, async () => {
  assert.equal(await call("heap_steps", "refuseGrowth"), true);
});
