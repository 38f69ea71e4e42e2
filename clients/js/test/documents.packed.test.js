/** The first programs that the documents show, as they stand, in an empty folder with the packed package. */

import assert from "node:assert/strict";
import { execFile } from "node:child_process";
import { mkdtemp, rm, symlink, writeFile } from "node:fs/promises";
import { createRequire } from "node:module";
import { tmpdir } from "node:os";
import { dirname, join } from "node:path";
import { after, before, test } from "node:test";
import { promisify } from "node:util";

import { firstProgram, TOP } from "./support/documents.js";
import { startPushing } from "./support/servers.js";

/** What a command may take. */
const MILLISECONDS = 120_000;

const run = promisify(execFile);
let folder;

/** Runs a command in the folder, and answers what it prints. */
async function printed(command, ...words) {
  const env = { ...process.env, npm_config_cache: join(folder, "cache"), npm_config_update_notifier: "false" };
  try {
    const { stdout } = await run(command, words, { cwd: folder, env, timeout: MILLISECONDS, killSignal: "SIGKILL" });
    return stdout;
  } catch (why) {
    throw new Error(`${command} ${words.join(" ")}: ${why.message}\n${why.stdout}`);
  }
}

/** The folder of the package `ws`, wherever this machine has it. */
function folderOfSockets() {
  const { resolve } = createRequire(import.meta.url);
  try {
    return dirname(resolve("ws/package.json"));
  } catch {
    return "/usr/share/nodejs/ws";
  }
}

/** As a user without network installs both packages: `ws` is the one that this machine has. */
before(async () => {
  folder = await mkdtemp(join(tmpdir(), "weblocks-documents-"));
  await writeFile(join(folder, "package.json"), JSON.stringify({ private: true, type: "module" }));
  const [{ filename }] = JSON.parse(await printed("npm", "pack", "--json", join(TOP, "clients/js")));
  await printed("npm", "install", "--offline", "--no-audit", "--no-fund", `./${filename}`);
  await symlink(folderOfSockets(), join(folder, "node_modules/ws"));
});

after(() => rm(folder, { recursive: true, force: true }));

for (const [path, says] of [
  ["docs/CLIENTS.md", "db is held\n"],
  ["clients/js/README.md", "report is mine\n"],
]) {
  test(`the first program of ${path}`, async (it) => {
    const { url } = await startPushing(it);
    await writeFile(join(folder, "first.js"), await firstProgram(path, "js", url));
    assert.equal(await printed(process.execPath, "first.js"), says);
  });
}
