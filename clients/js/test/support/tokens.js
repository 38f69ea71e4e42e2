/** Daemons that know their clients by tokens. */

import { mkdtemp, rm, writeFile } from "node:fs/promises";
import { tmpdir } from "node:os";
import { join } from "node:path";
import { startPushing } from "./servers.js";

/** A daemon with these lines as its file of tokens, and further options. */
export async function startWithTokens(t, lines, words = []) {
  const folder = await mkdtemp(join(tmpdir(), "weblocks-tokens-"));
  t.after(() => rm(folder, { recursive: true }));
  const file = join(folder, "tokens");
  await writeFile(file, lines.map((line) => `${line}\n`).join(""), { mode: 0o600 });
  return startPushing(t, { words: ["--token-file", file, ...words] });
}
