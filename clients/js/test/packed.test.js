/** The package as a user gets it. */

import assert from "node:assert/strict";
import { execFile, execFileSync } from "node:child_process";
import { mkdtemp, readdir, readFile, rm, writeFile } from "node:fs/promises";
import { tmpdir } from "node:os";
import { join } from "node:path";
import { test } from "node:test";
import { fileURLToPath } from "node:url";
import { promisify } from "node:util";
import { startPushing } from "./support/servers.js";

const run = promisify(execFile);
const HERE = fileURLToPath(new URL("..", import.meta.url));

const lacks = (program) => {
  try {
    execFileSync(program, ["--version"], { stdio: "ignore" });
    return false;
  } catch {
    return `there is no ${program} here`;
  }
};

test("the types are those of the package, and a strict user's program is well typed", { skip: lacks("tsc") },
  async () => {
    await run("tsc", ["--project", join(HERE, "test/types")]);
  });

test("the modules export what their types say", async () => {
  const exported = {
    "weblocks.js": ["Lock", "LockManager", "LostEvent", "StalledEvent", "connect"],
    "polyfill.js": ["install"],
    "testing.js": ["startServer", "useServer"],
  };
  for (const [file, names] of Object.entries(exported)) {
    assert.deepEqual(Object.keys(await import(`../${file}`)).sort(), names);
    const types = await readFile(join(HERE, file.replace(".js", ".d.ts")), "utf8");
    for (const name of names) assert.match(types, new RegExp(`^export (function|class|const) ${name}\\b`, "m"));
  }
});

test("npm pack gives a package that works in an empty folder", { skip: lacks("npm") }, async (t) => {
  const server = await startPushing(t);
  const folder = await mkdtemp(join(tmpdir(), "weblocks-packed-"));
  t.after(() => rm(folder, { recursive: true }));
  const places = `/usr/share/nodejs:${process.env.NODE_PATH ?? ""}`;
  const env = { ...process.env, NODE_PATH: places, npm_config_cache: folder };
  const { stdout } = await run("npm", ["pack", "--pack-destination", folder, "--json"], { cwd: HERE, env });
  const [{ filename, files }] = JSON.parse(stdout);
  assert.ok(files.every(({ path }) => !path.startsWith("test/") && !path.startsWith("bench/")));
  await run("npm", ["install", "--offline", "--no-audit", "--no-fund", join(folder, filename)], { cwd: folder, env });
  await writeFile(join(folder, "user.mjs"), `
    import { connect } from "weblocks";
    import { install } from "weblocks/polyfill";
    import { startServer, useServer } from "weblocks/testing";
    const locks = await connect({ url: ${JSON.stringify(server.url)}, origin: "https://a.test" });
    console.log(await locks.request("db", (lock) => lock.name), typeof install, typeof startServer, typeof useServer);
    await locks.close();
  `);
  const user = await run(process.execPath, ["user.mjs"], { cwd: folder, env });
  assert.match(user.stdout, /^db function function function$/m);
  const installed = join(folder, "node_modules/weblocks");
  assert.deepEqual((await readdir(join(folder, "node_modules"))).filter((name) => !name.startsWith(".")), ["weblocks"]);
  for (const file of ["README.md", "LICENSE-MIT", "LICENSE-APACHE", "weblocks.d.ts"]) {
    assert.ok((await readFile(join(installed, file), "utf8")).length > 0, file);
  }
});
