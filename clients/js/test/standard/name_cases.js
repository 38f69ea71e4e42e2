/** Names are sequences of code units, compared as they are (Web Locks, *resource names*; Web IDL, *DOMString*). */

import { expectEqual, expectSame, expectTrue } from "./expecting.js";
import { hold, isFree, wait } from "./holding.js";

/** Texts with code units of which no text of Unicode is made: surrogates without their other half. */
const LONE = [
  ...["\uD800", "\uDBFF", "\uDC00", "\uDFFF"],
  ...["a\uD83D", "\uDE00b", "\uDE00\uD83D", "\uD83D\uD83D\uDE00", "\uFDD0\uD800"],
];

/** Texts that need no care by the standard, and some by a service whose messages are JSON. */
const OTHERS = [
  ...["", " ", "\0", "\n\r\t", "\"\\/", "\u007F\u0080", "\u2028\u2029"],
  ...["\uFEFFa", "\u{1F600}", "\u{10FFFF}", "\uFFFD", "\uFFFE\uFFFF"],
];

/** Texts that begin as an escape of a client may. */
const LIKE_ESCAPES = ["\uFDD0", "\uFDD0d800", "\uFDD0\uFDD0", "\uFDD0\uFDD0d800", "\uFDD0D800", "\uFDD0d80", "a\uFDD0"];

/** The names that one agent holds of these, as another sees them, in an order that doesn't matter. */
async function expectShown({ agents }, names) {
  const [own, other] = await agents(2);
  const held = [];
  for (const name of names) {
    const holder = await hold(own, name);
    expectSame("the lock's name", (await holder.granted).name, name);
    held.push(holder);
  }
  for (const agent of [own, other]) {
    const shown = (await agent.locks.query()).held.map((it) => it.name);
    expectEqual("the names that query shows", shown.sort(), [...names].sort());
  }
  await Promise.all(held.map((it) => it.release()));
}

/** The first name's lock leaves the second's free, and the other way round. */
async function expectApart(own, other, one, second) {
  const held = await hold(own, one);
  expectTrue(`whether ${JSON.stringify(one)} is held`, !(await isFree(other, one)));
  expectTrue(`whether ${JSON.stringify(second)} is free`, await isFree(other, second));
  await held.release();
}

export const nameCases = {
  async "query shows names of all characters as they are"({ agents }) {
    await expectShown({ agents }, OTHERS);
  },

  async "a Lock has a name with lone surrogates as it was given"({ agents }) {
    const [own] = await agents(1);
    for (const name of LONE) {
      expectSame("the lock's name", await own.locks.request(name, (lock) => lock.name), name);
    }
  },

  async "query shows held names with lone surrogates as they are"({ agents }) {
    await expectShown({ agents }, LONE);
  },

  async "query shows pending names with lone surrogates as they are"({ agents }) {
    const [own, other] = await agents(2);
    const held = await hold(own, "a\uD800");
    const waits = await wait(other, "a\uD800");
    for (const agent of [own, other]) {
      const { pending } = await agent.locks.query();
      expectEqual("the names", pending.map((it) => it.name), ["a\uD800"]);
    }
    await held.release();
    await waits.granted;
    await waits.release();
  },

  async "a name with a lone surrogate is held by one of two agents"({ agents }) {
    const [own, other] = await agents(2);
    for (const name of LONE) {
      const held = await hold(own, name);
      expectTrue(`whether ${JSON.stringify(name)} is held`, !(await isFree(other, name)));
      await held.release();
    }
  },

  async "names that differ in a lone surrogate alone are two names"({ agents }) {
    const [own, other] = await agents(2);
    const lone = [["\uD800", "\uD801"], ["\uD800", "\uDC00"], ["a\uDFFF", "a\uFFFD"]];
    const pairs = [...lone, ["\uDE00\uD83D", "\uD83D\uDE00"], ["\uD800", "d800"]];
    for (const [one, second] of pairs) {
      await expectApart(own, other, one, second);
      await expectApart(own, other, second, one);
    }
  },

  async "names that look like a client's escapes are shown as they are"({ agents }) {
    await expectShown({ agents }, LIKE_ESCAPES);
  },

  async "a name that looks like an escape isn't the name that it would stand for"({ agents }) {
    const [own, other] = await agents(2);
    const pairs = [["\uD800", "\uFDD0d800"], ["\uFDD0", "\uFDD0\uFDD0"], ["\uFDD0\uD800", "\uFDD0\uFDD0d800"]];
    for (const [one, second] of pairs) {
      await expectApart(own, other, one, second);
      await expectApart(own, other, second, one);
    }
  },

  async "names are compared unit by unit, without any folding"({ agents }) {
    const [own, other] = await agents(2);
    const characters = [["a", "A"], ["\u00E9", "e\u0301"], ["\u212B", "\u00C5"]];
    for (const [one, second] of [...characters, ["a", "a "], ["a", "a\0"], ["1", "1.0"], ["", " "]]) {
      await expectApart(own, other, one, second);
    }
  },

  async "an empty name is a name"({ agents }) {
    const [own, other] = await agents(2);
    const held = await hold(own, "");
    expectTrue("whether it is held", !(await isFree(other, "")));
    await held.release();
    expectTrue("whether it is free", await isFree(other, ""));
  },
};
