/**
 * Takes the picture of the page that README shows: agents of three origins do for a minute what the page is made to
 * show, so that the lanes are full.
 *
 * usage: node picture.js FILE
 */

import { Chromium } from "../../clients/js/test/browser/chromium.js";
import { connectAgents, hold, startDaemon } from "./daemon.js";
import { Opened, sleep } from "./looking.js";

const SHOP = "https://shop.example", DOCS = "https://docs.example";
/** Seconds that all takes, a lane's minute included. */
const WHOLE = 63;
const WINDOW = { width: 1200, height: 664 };

const ends = [];
const t = { after: (end) => ends.unshift(end) };

/** Has an agent hold a lock for so many seconds, from when it is granted, unless it is stolen or all is over. */
async function keep(locks, name, seconds = WHOLE, options = {}) {
  try {
    const { release, promise } = await hold(locks, name, options);
    await Promise.race([sleep(1000 * seconds), promise]);
    release();
    await promise;
  } catch (why) {
    if (why.name !== "AbortError") throw why;
  }
}

/** An agent that asks for a lock again and again, holds it for some seconds, and rests for some. */
async function repeat(locks, name, seconds, rest) {
  const end = performance.now() + 1000 * WHOLE;
  while (performance.now() < end) {
    await keep(locks, name, seconds);
    await sleep(1000 * rest);
  }
}

async function play(shop, docs) {
  [[0, 4, 5], [1, 6, 3], [2, 3, 8]].forEach(([at, ...times]) => repeat(shop[at], "checkout", ...times));
  for (const [at, seconds] of [[0, 70], [1, 21], [2, 70], [3, 33]]) {
    sleep(3000 * at).then(() => keep(shop[at], "catalogue", seconds, { mode: "shared" }));
  }
  sleep(52_000).then(() => keep(shop[4], "catalogue"));
  keep(shop[5], "ledger");
  sleep(24_000).then(() => keep(shop[6], "ledger", 9));
  sleep(38_000).then(() => keep(shop[7], "ledger", 12, { steal: true }));
  keep(docs[0], "reports/2026-11", 46);
  docs.slice(1, 11).forEach((it, at) => sleep(14_000 + 2600 * at).then(() => keep(it, "reports/2026-11", 6)));
  for (const at of [2, 19, 31, 44]) sleep(1000 * at).then(() => keep(docs[11], "index <draft>", 5));
  await sleep(1000 * WHOLE);
}

async function main(file) {
  const daemon = await startDaemon(t, [SHOP, DOCS]);
  const shop = await connectAgents(t, daemon, 8, { origin: SHOP });
  const docs = await connectAgents(t, daemon, 12, { origin: DOCS });
  const chromium = await Chromium.start();
  t.after(() => chromium.end());
  const page = await Opened.open(t, chromium, daemon.page, WINDOW);
  await play(shop, docs);
  await page.picture(file);
}

await main(process.argv[2]).finally(async () => {
  for (const end of ends) await end();
});
process.exit();
