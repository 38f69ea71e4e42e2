/** The lanes, beside what the rules of Web Locks make of made-up requests. */

import assert from "node:assert/strict";
import { test } from "node:test";
import { Opened, sleep, useBrowser } from "./looking.js";
import { StandIn } from "./standin.js";
import { grantAll, managerAt, numbersFrom, requestsFor } from "./world.js";

const used = useBrowser();
const ORIGIN = "https://a.test";
/** Seconds: for which requests are made; by which times may differ, of a bar and of bars that meet. */
const SECONDS = 20, ABOUT = 0.25, APART = 0.25;
/** Seconds between two looks from which on the page may take one request for two, and how often it is tried again. */
const TOO_LATE = 1.5, TRIES = 5;
const SEED = Number(process.env.SEED ?? 1);

/** The longest time between two looks. The page asks again once it has an answer: so late one comes at most. */
function longestBetween(looks) {
  return looks.reduce((found, look, at) => Math.max(found, look - (looks[at - 1] ?? look)), 0);
}

/** Whether a bar is that of a lock, whose end is somewhere between the looks before and after it. */
function isBarOf({ client, kind, from, to }, lock, { looks, edge, late }) {
  const about = ABOUT + late;
  const isAbout = (ago, first, last) => edge - ago > first - about && edge - ago < last + about;
  const before = looks.findLast((it) => it < lock.to) ?? 0;
  const after = looks.find((it) => it >= lock.to) ?? Infinity;
  const hasEnds = isAbout(from, lock.granted, lock.granted) && isAbout(to, before, after);
  return client === `client-${lock.client}` && kind.startsWith(lock.mode) && hasEnds;
}

/** Sees that the bars of two locks meet where one of them excludes the other and began as that ended. */
function assertMeet(locks, bars, seen) {
  for (const before of locks) {
    const after = locks.find((it) => it.granted === before.to && [it.mode, before.mode].includes("exclusive"));
    const [one, other] = [before, after].map((lock) => lock && bars.find((it) => isBarOf(it, lock, seen)));
    if (!one || !other) continue;
    assert.ok(Math.abs(one.to - other.from) < APART, `${one.client} ends ${one.to} s ago, and ${other.from} s`);
  }
}

/** Sees that a lane has a bar for each lock that a look saw, from its grant to its end, and no other. */
function assertBars(requests, { bars, thefts }, seen) {
  const locks = requests.filter((lock) => seen.looks.some((it) => it >= lock.granted && it < lock.to));
  const had = JSON.stringify({ ...seen, locks, bars }, null, 1);
  // (a look whose answer the page has for sure is followed by another)
  for (const it of locks.filter(({ granted }) => granted < seen.edge - ABOUT - 2 * seen.late)) {
    assert.equal(bars.filter((bar) => isBarOf(bar, it, seen)).length, 1, `client-${it.client} of ${had}`);
  }
  for (const bar of bars) {
    assert.ok(locks.some((it) => isBarOf(bar, it, seen)), `the bar of ${bar.client} of ${had}`);
  }
  assertMeet(locks, bars, seen);
  assert.equal(thefts, locks.filter((it) => it.passed > 0).length, `the thefts of ${had}`);
}

/** What the page shows of these requests once they are over, how it looked, and the time of its lanes' right edge. */
async function watch(t, requests) {
  const server = await StandIn.start(t);
  const page = await Opened.open(t, used.chromium, server.url, { height: 1600 });
  await page.untilShows({ state: "Live" });
  const looks = [];
  const began = Date.now();
  const body = () => {
    looks.push((Date.now() - began) / 1000);
    return { left_out: { managers: 0, rows: 0 }, managers: [managerAt(ORIGIN, requests, looks.at(-1))] };
  };
  server.answer = { status: 200, body };
  await sleep(1000 * (SECONDS + 3));
  const clicked = `document.getElementById("pause").click(), performance.timeOrigin + performance.now()`;
  const paused = ((await page.evaluate(clicked)) - began) / 1000;
  const { names } = await page.read();
  return { names, seen: { looks, edge: paused - 0.6, late: longestBetween([...looks, paused]) } };
}

/** The same, on a machine that may stand still: a try in which it did for too long says nothing. */
async function watchInTime(t, requests) {
  for (let tries = 1; tries < TRIES; tries += 1) {
    const watched = await watch(t, requests);
    if (watched.seen.late < TOO_LATE) return watched;
    t.diagnostic(`tried again: between two looks were ${watched.seen.late} s`);
  }
  return watch(t, requests);
}

test(`each lock has its bar (seed ${SEED})`, async (t) => {
  const random = numbersFrom(SEED);
  const names = Array.from({ length: 8 }, (_, at) => `name ${at}`);
  const requests = new Map(names.map((it) => [it, grantAll(requestsFor(it, random, { seconds: SECONDS, count: 14 }))]));
  const all = [...requests.values()].flat();
  assert.ok(all.some((it) => it.passed > 0), "a theft that passes one who waits");
  const { names: shown, seen } = await watchInTime(t, all);
  for (const [name, made] of requests) assertBars(made, shown[`${ORIGIN} ${name}`], seen);
});
