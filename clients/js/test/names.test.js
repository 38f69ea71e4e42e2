/** The names of locks on the wire. */

import assert from "node:assert/strict";
import { readFileSync } from "node:fs";
import { test } from "node:test";
import { escapeName, isTooLong, unescapeName } from "../src/names.js";
import { assertFree, assertRejects, hold } from "./support/holding.js";
import { testWithEach } from "./support/servers.js";

const VECTORS = new URL("../../../tests/clients.d/names.json", import.meta.url);
const vectors = JSON.parse(readFileSync(VECTORS, "utf8")).map(({ name, wire }) => {
  return { name: String.fromCharCode(...name), wire };
});

test("a name goes over the wire as the vectors of both clients say", () => {
  assert.ok(vectors.length > 20);
  for (const { name, wire } of vectors) assert.equal(escapeName(name), wire);
});

test("the escape is undone", () => {
  for (const { name, wire } of vectors) assert.equal(unescapeName(wire), name);
});

test("what goes over the wire has no lone surrogate", () => {
  for (let unit = 0xd800; unit < 0xe000; unit += 1) {
    const wire = escapeName(`a${String.fromCharCode(unit)}b`);
    assert.match(wire, /^a\uFDD0d[89a-f][0-9a-f]{2}b$/);
    assert.equal(unescapeName(wire), `a${String.fromCharCode(unit)}b`);
  }
});

test("a text that no name is escaped to is shown as it is", () => {
  const others = ["\uFDD0", "\uFDD0x", "\uFDD0D800", "\uFDD0d80", "\uFDD0d7ff", "\uFDD0\uFDD0\uFDD0", "\uFDD0e000"];
  for (const text of others) assert.equal(unescapeName(text), text);
  assert.equal(unescapeName("\uFDD0d800\uFDD0dc00"), "\uFDD0d800\uFDD0dc00", "the pair's own text has no escape");
  assert.equal(unescapeName("\uFDD0\uFDD0 \uFDD0x"), "\uFDD0\uFDD0 \uFDD0x");
});

test("no two names are spelt alike", () => {
  const units = ["\uD800", "\uDC00", "\uFDD0", "d", "8", "0"];
  const names = units.flatMap((a) => units.flatMap((b) => units.map((c) => a + b + c)));
  assert.equal(new Set(names.map(escapeName)).size, new Set(names).size);
});

test("a name may have 1,024 bytes of UTF-8 on the wire, and no more", () => {
  assert.equal(isTooLong("a".repeat(1024)), false);
  assert.equal(isTooLong("a".repeat(1025)), true);
  assert.equal(isTooLong("\u00fc".repeat(512)), false);
  assert.equal(isTooLong("\u00fc".repeat(513)), true);
});

testWithEach("a name with lone surrogates is a name of its own, and query shows it", async (agent) => {
  const [a, b] = [await agent(), await agent()];
  const held = [];
  for (const { name } of vectors.filter(({ name: text }) => !text.startsWith("-"))) {
    const holding = await hold(a, name);
    assert.equal(holding.lock.name, name);
    held.push({ name, holding });
  }
  const shown = (await b.query()).held.map(({ name }) => name);
  assert.deepEqual(shown, held.map(({ name }) => name));
  for (const { holding } of held) {
    holding.release();
    await holding.promise;
  }
  await assertFree(b);
});

testWithEach("a name that is too long is refused with QuotaExceededError, however long it is", async (agent) => {
  const locks = await agent();
  assert.equal(await locks.request("a".repeat(1024), () => "granted"), "granted");
  await assertRejects(locks.request("a".repeat(1025), () => {}), "QuotaExceededError");
  await assertRejects(locks.request("a".repeat(100_000), () => {}), "QuotaExceededError");
  await assertRejects(locks.request("\uD800".repeat(147), () => {}), "QuotaExceededError");
  assert.equal(await locks.request("\uD800".repeat(146), () => "granted"), "granted");
});
