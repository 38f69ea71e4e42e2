/** What a page does with the module, for the tests of a file: each function answers what is to be compared. */

import { Engine, EngineError, LINE_BYTES, loadModule } from "../../engine.js";

const OPEN = '{"agent":"a","id":1,"op":"open","url":"https://a.test/"}';

let compiling = null;

async function makeEngine(options) {
  compiling ??= loadModule("/wasm/weblocks.wasm");
  return new Engine(await compiling, options);
}

/** The module's exports, with a memory of their own. */
export async function makeExports() {
  compiling ??= loadModule("/wasm/weblocks.wasm");
  return new WebAssembly.Instance(await compiling).exports;
}

/** The replies to the lines of a script, texts or lists of bytes, and its audit, each line ended by LF. */
export async function runScript(lines, seed) {
  const options = { keepsBooks: true, ...(seed !== undefined && { seed: new Uint8Array(16).fill(seed) }) };
  const engine = await makeEngine(options);
  const answer = (line) => engine.answer(typeof line === "string" ? line : Uint8Array.from(line));
  return { out: lines.map((line) => `${answer(line)}\n`).join(""), audit: engine.audit() };
}

/** How these lines are refused, and what the longest line that is taken is answered afterwards. */
export async function refuseLines() {
  const engine = await makeEngine();
  engine.answer(OPEN);
  const tooLong = ["x".repeat(LINE_BYTES + 1), "€".repeat(LINE_BYTES / 2), new Uint8Array(LINE_BYTES + 1)];
  const lines = [...tooLong, "1\n2"];
  const refused = [...lines.map((line) => () => engine.answer(line)), () => engine.audit()].map(faultOf);
  const longest = `{"agent":"a","id":2,"op":"poll","x":"${"x".repeat(LINE_BYTES)}`.slice(0, LINE_BYTES - 2);
  return [...refused, engine.answer(`${longest}"}`)];
}

function faultOf(run) {
  try {
    return run();
  } catch (fault) {
    return [fault instanceof EngineError, fault.message, fault.isOver];
  }
}

/** By how many bytes the memory has grown in so many cycles of a lock, after a thousand. */
export async function growthOfCycles(count) {
  const engine = await makeEngine();
  engine.answer(OPEN);
  let before = 0;
  for (let number = 1; number <= count + 1000; number += 1) {
    if (number === 1000) before = engine.memoryBytes;
    engine.answer('{"agent":"a","id":2,"op":"request","name":"db"}');
    engine.answer(`{"agent":"a","id":3,"op":"release","request":${number}}`);
  }
  return engine.memoryBytes - before;
}
