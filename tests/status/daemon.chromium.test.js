/** The page beside a daemon and real agents. */

import assert from "node:assert/strict";
import { test } from "node:test";
import { connectAgents, hold, ORIGIN, startDaemon, wait } from "./daemon.js";
import { Opened, sleep, useBrowser } from "./looking.js";

const used = useBrowser();

/** Names that would run as scripts if they were written as markup, or that look like something else. */
const HOSTILE = [
  `<img src=x onerror="document.title = 'run'">`,
  `</script><script>document.title = 'run'</script>`,
  `"><svg onload=alert(1)>`,
  "javascript:alert(1)",
  "\u202egpj.exe",
  " a\nname\u0000",
  "a".repeat(1024),
];

/** A daemon with so many agents, and its page. */
async function begin(t, count, how) {
  const daemon = await startDaemon(t);
  const agents = await connectAgents(t, daemon, count);
  const page = await Opened.open(t, used.chromium, daemon.page, how);
  return { daemon, page, agents };
}

/** Waits until a name is shown with these holders and waiters, and gives what is shown of it. */
async function untilRow(page, name, held, waiting) {
  const key = `${ORIGIN} ${name}`;
  const { names } = await page.until((shown) => {
    assert.deepEqual(shown.names[key].held, held);
    assert.deepEqual(shown.names[key].waiting, waiting);
  });
  return names[key];
}

/** What is shown of a name once its bars end and begin in sight. */
async function rowInSight(page, name) {
  await sleep(2000);
  return (await page.read()).names[`${ORIGIN} ${name}`];
}

function assertMeet(one, other) {
  assert.ok(Math.abs(one.to - other.from) < 0.25, `${one.client} ends ${one.to} s ago, and ${other.from} s`);
}

test("a hand-over: the first in the queue holds the lock, and the bars meet", async (t) => {
  const { page, agents } = await begin(t, 2);
  const { release } = await hold(agents[0], "db");
  const { had } = await wait(agents[1], "db");
  const { count } = await untilRow(page, "db", ["client-2 exclusive"], ["1 client-3 exclusive"]);
  assert.equal(count, "1 waiting");
  release();
  await had;
  await untilRow(page, "db", ["client-3 exclusive"], []);
  const { bars, crowd, thefts } = await rowInSight(page, "db");
  assert.deepEqual(bars.map((it) => it.client), ["client-2", "client-3"]);
  assert.notEqual(bars[0].kind, bars[1].kind);
  assertMeet(...bars);
  assert.deepEqual([crowd, thefts], [1, 0]);
  await page.until(({ names }) => assert.deepEqual(names[`${ORIGIN} db`].labels, [false, true]));
});

test("shared locks are side by side, and an exclusive request waits behind them", async (t) => {
  const { page, agents } = await begin(t, 4);
  const shared = { mode: "shared" };
  const held = [];
  for (const it of agents.slice(0, 3)) held.push(await hold(it, "db", shared));
  await wait(agents[3], "db");
  await untilRow(page, "db", [2, 3, 4].map((it) => `client-${it} shared`), ["1 client-5 exclusive"]);
  const { bars } = await rowInSight(page, "db");
  assert.deepEqual(bars.map((it) => it.kind), ["shared", "shared", "shared"]);
  const tops = bars.map((it) => Math.round(it.top - bars[0].top));
  assert.deepEqual(tops, [0, 9, 17]);
  held.forEach((it) => it.release());
  const after = await untilRow(page, "db", ["client-5 exclusive"], []);
  assert.equal(after.bars.length, 4);
});

test("a steal while another waits is marked, and the one who waits goes on waiting", async (t) => {
  const { page, agents } = await begin(t, 3);
  const stolen = await hold(agents[0], "db");
  await wait(agents[1], "db");
  await untilRow(page, "db", ["client-2 exclusive"], ["1 client-3 exclusive"]);
  await hold(agents[2], "db", { steal: true });
  await assert.rejects(stolen.promise, { name: "AbortError" });
  await untilRow(page, "db", ["client-4 exclusive by a steal"], ["1 client-3 exclusive"]);
  const { bars, thefts, words } = await rowInSight(page, "db");
  assertMeet(...bars);
  assert.equal(thefts, 1);
  assert.match(words, /stolen 1 time$/);
});

test("a pile-up: those who wait in the order of the queue, the others at the press of a button", async (t) => {
  const { page, agents } = await begin(t, 12);
  await hold(agents[0], "db");
  for (const it of agents.slice(1)) await wait(it, "db", { mode: it === agents[3] ? "shared" : "exclusive" });
  const waiting = agents.slice(1).map((it, at) => `${at + 1} client-${at + 3} ${at === 2 ? "shared" : "exclusive"}`);
  await page.untilShows({ names: { [`${ORIGIN} db`]: { count: "11 waiting", more: ["Show 3 more waiting"] } } });
  await untilRow(page, "db", ["client-2 exclusive"], waiting.slice(0, 8));
  await page.evaluate(`document.querySelector(".more:not([hidden])").click()`);
  const whole = await untilRow(page, "db", ["client-2 exclusive"], waiting);
  assert.deepEqual(whole.more, ["Show fewer waiting"]);
});

test("the filter finds an origin, a name and a client, and a name that is waited for", async (t) => {
  const { daemon, page, agents } = await begin(t, 2);
  await hold(agents[0], "db");
  await hold(agents[0], "log");
  await wait(agents[1], "log");
  const both = [`${ORIGIN} db`, `${ORIGIN} log`];
  await page.until(({ names }) => assert.deepEqual(Object.keys(names), both));
  const shows = async (text, wanted, summary) => {
    await page.evaluate(`document.getElementById("filter").select()`);
    await page.type(text);
    const shown = await page.until(({ names }) => assert.deepEqual(Object.keys(names), wanted));
    assert.equal(/; ([^;]*) shown/.exec(shown.summary)?.[1], summary);
  };
  await shows("LO", both.slice(1), "1 of 2 names");
  await shows("client-3", both.slice(1), "1 of 2 names");
  assert.equal(await page.evaluate(`document.querySelector("li.match bdi").textContent`), "client-3");
  await shows("client-", both, undefined);
  await shows("a.test d", both.slice(0, 1), "1 of 2 names");
  await shows("b.test", [], "0 of 2 names");
  await shows(" ", both, undefined);
  await page.evaluate(`document.getElementById("waited").click()`);
  await page.until(({ names }) => assert.deepEqual(Object.keys(names), both.slice(1)));
});

test("a pause: nothing is asked for and nothing moves, until it ends", async (t) => {
  const { page, agents } = await begin(t, 1);
  await hold(agents[0], "db");
  await untilRow(page, "db", ["client-2 exclusive"], []);
  await page.evaluate(`document.getElementById("pause").click()`);
  const before = await page.read();
  assert.equal(before.state, "Paused");
  const asked = page.targets.length;
  await hold(agents[0], "log");
  await sleep(1500);
  assert.deepEqual(await page.read(), before);
  await page.evaluate(`document.getElementById("filter").focus()`);
  await page.type("db");
  assert.deepEqual(await page.read(), before);
  await page.press("Escape");
  assert.equal(page.targets.length, asked);
  await page.evaluate(`document.getElementById("pause").click()`);
  const { state } = await page.until(({ names }) => `${ORIGIN} log` in names);
  assert.equal(state, "Live");
});

test("names are text: scripts, other directions, unseen characters, and long ones at 400 pixels", async (t) => {
  for (const width of [400, 1200]) {
    const { page, agents } = await begin(t, 1, { width });
    for (const name of HOSTILE) await hold(agents[0], name);
    await page.until(({ summary }) => summary.startsWith("7 locks held"));
    const names = await page.evaluate(`[...document.querySelectorAll("h3 bdi")].map((it) => it.textContent)`);
    for (const it of HOSTILE.slice(0, 4)) assert.ok(names.includes(it), it);
    assert.ok(names.includes("\\u{202e}gpj.exe"));
    assert.ok(names.includes("\\u{20}a\\u{a}name\\u{0}"));
    assert.ok(names.includes(`${"a".repeat(300)} .. (1,024 characters)`));
    const markup = await page.evaluate(`document.querySelectorAll("img, main script, [onload], [onerror]").length`);
    assert.equal(markup, 0);
    assert.equal(await page.evaluate("document.title"), "weblocks");
    const shown = await page.evaluate("document.documentElement.scrollWidth");
    assert.ok(shown <= width, `it is ${shown} pixels wide, and not ${width}`);
    assert.deepEqual(page.faults, []);
    assert.deepEqual([...new Set(page.targets.map((it) => new URL(it).host))], [new URL(page.url).host]);
  }
});
