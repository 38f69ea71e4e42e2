/** A message as a line: whatever the text, the engine answers what it answers a connection. */

import assert from "node:assert/strict";
import { test } from "node:test";
import { isTooLong, lineOf, MESSAGE_BYTES } from "../src/line.js";
import { ENGINES } from "./support/engines.js";

/** Messages of an agent that hasn't opened, with what FORMATS.md says is answered. */
const ANSWERS = [
  ["", "BadJson", null],
  ["{", "BadJson", null],
  ["}", "BadJson", null],
  ['{"id":1', "BadJson", null],
  ['{"id":1}}', "BadJson", null],
  ['{"id":1},{"id":2}', "BadJson", null],
  ['{"id":[1}', "BadJson", null],
  ['{"id":{"a":1}', "BadJson", null],
  ['{"id":"}', "BadJson", null],
  ['{"id":1,}', "BadJson", null],
  ["{,}", "BadJson", null],
  ["\ufeff{}", "BadJson", null],
  ['{"id":1,"op":"poll"}\u00a0', "BadJson", null],
  ['{"id":1,"op":"po\nll"}', "BadJson", null],
  ["[]", "NotAnObject", null],
  ['[{"id":1}]', "NotAnObject", null],
  ["7", "NotAnObject", null],
  ["{}", "BadId", null],
  [" {\t\n} ", "BadId", null],
  ['{"id":1.0,"op":"poll"}', "BadId", null],
  ['{"id":1}', "BadOp", 1],
  ['{"id":1,"op":"poll"}', "NotOpen", 1],
  ['\n{\n  "id": 1,\n  "op": "poll"\n}\n', "NotOpen", 1],
  ['{"agent":7,"id":1,"op":"poll"}', "NotOpen", 1],
];

for (const [name, make] of Object.entries(ENGINES)) {
  test(`texts that are messages, and texts that are none (${name})`, async (t) => {
    const engine = await make(t);
    for (const [text, fault, id] of ANSWERS) {
      const { error, id: answered } = JSON.parse(engine.answer(lineOf("1", text)));
      assert.deepEqual([error.name, answered], [fault, id], JSON.stringify(text));
    }
  });

  test(`nobody speaks for another agent (${name})`, async (t) => {
    const engine = await make(t);
    const open = '{"id":1,"op":"open","url":"https://a.test/"}';
    engine.answer(lineOf("1", open));
    for (const text of [
      '{"agent":"1","id":2,"op":"poll"}',
      '{"id":2,"op":"poll","agent":"1"}',
      '{"id":2,"op":"poll","\\u0061gent":"1" }',
    ]) {
      assert.equal(JSON.parse(engine.answer(lineOf("2", text))).error.name, "NotOpen", text);
    }
    assert.deepEqual(JSON.parse(engine.answer(lineOf("1", '{"agent":"2","id":3,"op":"poll"}'))).ok, {});
  });
}

test("a message has 65,500 bytes at most, in whatever characters", () => {
  assert.equal(isTooLong("x".repeat(MESSAGE_BYTES)), false);
  assert.equal(isTooLong("x".repeat(MESSAGE_BYTES + 1)), true);
  assert.equal(isTooLong("€".repeat(MESSAGE_BYTES / 3)), false);
  assert.equal(isTooLong("€".repeat(MESSAGE_BYTES / 3 + 1)), true);
});
