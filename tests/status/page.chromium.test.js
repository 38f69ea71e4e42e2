/** The page beside a server that answers what the test says: what no daemon can be brought to show at will. */

import assert from "node:assert/strict";
import { test } from "node:test";
import { Opened, sleep, useBrowser } from "./looking.js";
import { manager, row, StandIn } from "./standin.js";

const used = useBrowser();
const ORIGIN = "https://a.test";

async function open(t, managers, how) {
  const server = await StandIn.start(t);
  server.show(managers);
  return { server, page: await Opened.open(t, used.chromium, server.url, how) };
}

test("what was left out is said, for the whole and for a manager", async (t) => {
  const held = [row("db", 1, { granted: 1 })];
  const { server, page } = await open(t, []);
  server.show([manager(ORIGIN, { held, leftOut: 1200 })], { managers: 3, rows: 4000 });
  await page.untilShows({ leftOut: "Not listed: 3 origins or buckets, with 4,000 requests." });
  const noted = await page.evaluate(`document.querySelector(".heading .left-out").textContent`);
  assert.equal(noted, "Not listed: 1,200 requests of this origin and bucket.");
  server.show([manager(ORIGIN, { held })]);
  await page.untilShows({ leftOut: "" });
  assert.equal(await page.evaluate(`document.querySelector(".heading .left-out").hidden`), true);
});

test("nothing held is said, and a name that is free stays for a while", async (t) => {
  const { server, page } = await open(t, []);
  await page.untilShows({ state: "Live", summary: "No lock is held or waited for." });
  server.show([manager(ORIGIN, { held: [row("db", 1, { granted: 1 })] })]);
  await page.untilShows({ names: { [`${ORIGIN} db`]: { held: ["client-1 exclusive"], free: false } } });
  server.show([]);
  await page.untilShows({ names: { [`${ORIGIN} db`]: { held: [], free: true } } });
  await page.untilShows({ summary: "0 locks held, 0 waiting; 0 names in use." });
});

test("a bucket that isn't the default one is named, beside its origin", async (t) => {
  const held = [row("db", 1, { granted: 1 })];
  const { page } = await open(t, [manager(ORIGIN, { held }), manager(ORIGIN, { bucket: "inbox", held })]);
  const { names } = await page.until(({ state }) => state === "Live");
  assert.deepEqual(Object.keys(names), [`${ORIGIN} db`, `${ORIGIN} inbox db`]);
});

test("a server that can't be reached is said, and asked again until it can be", async (t) => {
  const held = [row("db", 1, { granted: 1 })];
  const { server, page } = await open(t, [manager(ORIGIN, { held })]);
  await page.untilShows({ state: "Live" });
  const { port } = server;
  await server.stop();
  const { state } = await page.until((shown) => shown.state !== "Live");
  assert.match(state, /^The server can't be reached, since \d\d:\d\d:\d\d\. Trying again\.$/);
  const alone = await page.read();
  assert.deepEqual(alone.names[`${ORIGIN} db`].held, ["client-1 exclusive"]);
  const again = await StandIn.start(t, port);
  again.show([manager(ORIGIN, { held: [row("log", 1, { granted: 1 })] })]);
  await page.untilShows({ state: "Live", names: { [`${ORIGIN} log`]: { held: ["client-1 exclusive"] } } });
});

test("answers that are none are said, each by what it is", async (t) => {
  const { server, page } = await open(t, []);
  for (const [status, body, said] of [
    [503, "", "The server answers with status 503"],
    [401, "", "The server wants its token: load this page again"],
    [200, "{", "The server's answer can't be read"],
    [200, "{}", "The server's answer can't be read"],
    [200, "null", "The server's answer can't be read"],
    [200, `{"left_out":{"managers":0,"rows":0},"managers":[{"origin":1}]}`, "The server's answer can't be read"],
  ]) {
    server.answer = { status, body };
    await page.until(({ state }) => assert.ok(state.startsWith(`${said}, since `), state));
    server.show([]);
    await page.untilShows({ state: "Live" });
  }
});

test("a request of a server that was started anew isn't taken for one of its number before", async (t) => {
  const { server, page } = await open(t, [manager(ORIGIN, { held: [row("db", 1, { asked: 50, granted: 50 })] })]);
  await page.until(({ names }) => assert.match(names[`${ORIGIN} db`].times[0], /^ 5[0-9] s$/));
  server.show([manager(ORIGIN, { held: [row("db", 1, { asked: 0.1, granted: 0.1 })] })]);
  const { names } = await page.until((shown) => shown.names[`${ORIGIN} db`].bars.length === 2);
  assert.match(names[`${ORIGIN} db`].times[0], /^ [0-9]\.[0-9] s$/);
});

test("while nothing was heard for long a lane says so, before and after", async (t) => {
  const { server, page } = await open(t, [manager(ORIGIN, { held: [row("db", 1, { granted: 1 })] })]);
  const { answer } = server;
  const key = `${ORIGIN} db`;
  await page.untilShows({ names: { [key]: { unseen: 1 } } });
  server.answer = { status: 503, body: "" };
  await page.untilShows({ names: { [key]: { unseen: 2 } } });
  await sleep(3000);
  server.answer = answer;
  const { names } = await page.untilShows({ state: "Live", names: { [key]: { unseen: 2 } } });
  assert.equal(names[key].bars.length, 1);
});

test("one origin alone, by its link, and all of them again", async (t) => {
  const held = [row("db", 1, { granted: 1 })];
  const both = ["https://a.test", "https://b.test:8443"].map((origin) => manager(origin, { held }));
  const { server, page } = await open(t, both);
  await page.until(({ names }) => Object.keys(names).length === 2);
  server.show(both.slice(1));
  await page.evaluate(`document.querySelectorAll("h2 a")[1].click()`);
  await page.until(({ names }) => assert.deepEqual(Object.keys(names), ["https://b.test:8443 db"]));
  assert.equal(server.targets.at(-1), "/locks?origin=https%3A%2F%2Fb.test%3A8443");
  await page.evaluate(`document.getElementById("everything").click()`);
  await page.until(({ state }) => state === "Live" && server.targets.at(-1) === "/locks");
  assert.equal(await page.evaluate(`document.getElementById("alone").hidden`), true);
});

test("the filter finds a client by its whole number, and those whose names begin with a word", async (t) => {
  const held = [row("db", 1, { granted: 1 }), row("log", 10, { granted: 1 }), row("client-1", 2, { granted: 1 })];
  const { page } = await open(t, [manager(ORIGIN, { held })]);
  await page.untilShows({ state: "Live" });
  await page.evaluate(`document.getElementById("filter").focus()`);
  for (const [text, ...wanted] of [["client-1", "client-1", "db"], ["", "client-1", "db", "log"], ["-1", "client-1"]]) {
    await page.evaluate(`document.getElementById("filter").select()`);
    await (text ? page.type(text) : page.press("Escape"));
    await page.until(({ names }) => assert.deepEqual(Object.keys(names), wanted.map((it) => `${ORIGIN} ${it}`)));
  }
});

test("ten thousand names: only those in sight are there, and a key is answered soon", async (t) => {
  const names = Array.from({ length: 1000 }, (_, at) => row(`name-${at}`, at + 1, { granted: 1 }));
  const origins = Array.from({ length: 10 }, (_, at) => manager(`https://a${at}.test`, { held: names }));
  const { page } = await open(t, origins);
  await page.until(({ summary }) => summary.startsWith("10,000 locks held"));
  assert.ok((await page.evaluate(`document.querySelectorAll("*").length`)) < 2000);
  await page.evaluate(`document.getElementById("filter").focus()`);
  await page.type("name-777");
  await page.until(({ names: shown }) => Object.keys(shown).length === 10);
  await page.evaluate(`document.getElementById("filter").select()`);
  await page.press("Escape");
  await page.until(({ summary }) => !summary.includes("shown"));
  await page.evaluate("scrollTo(0, document.documentElement.scrollHeight)");
  await page.until(() => page.evaluate(`document.querySelector(".row:last-child h3 bdi").textContent === "name-999"`));
});

test("ten thousand who wait for one name", async (t) => {
  const pending = Array.from({ length: 9999 }, (_, at) => row("db", at + 2));
  const { page } = await open(t, [manager(ORIGIN, { held: [row("db", 1, { granted: 1 })], pending })]);
  const shown = await page.untilShows({ names: { [`${ORIGIN} db`]: { more: ["Show 9,991 more waiting"] } } });
  assert.equal(shown.names[`${ORIGIN} db`].count, "9,999 waiting");
  await page.evaluate(`document.querySelectorAll(".more")[1].click()`);
  const whole = await page.until(({ names }) => names[`${ORIGIN} db`].waiting.length === 500);
  assert.deepEqual(whole.names[`${ORIGIN} db`].more, ["Show fewer waiting (9,499 more aren't shown)"]);
});

test("by the keyboard alone: filter, box, pause, and what more there is, in this order", async (t) => {
  const pending = Array.from({ length: 20 }, (_, at) => row("db", at + 2));
  const { page } = await open(t, [manager(ORIGIN, { held: [row("db", 1, { granted: 1 })], pending })]);
  await page.untilShows({ state: "Live" });
  const focused = () => page.evaluate(`document.activeElement.id || document.activeElement.textContent`);
  const order = [];
  for (let at = 0; at < 5; at += 1) {
    await page.press("Tab");
    order.push(await focused());
  }
  assert.deepEqual(order, ["filter", "waited", "pause", "this origin alone", "Show 12 more waiting"]);
  await page.press("Enter");
  await page.until(({ names }) => names[`${ORIGIN} db`].waiting.length === 20);
  assert.equal(await focused(), "Show fewer waiting");
  for (const key of ["Tab", "Tab", "Tab"]) await page.press(key, 8);
  await page.press(" ");
  await page.untilShows({ state: "Paused" });
  assert.equal(await page.evaluate(`document.getElementById("pause").getAttribute("aria-pressed")`), "true");
});

test("its parts have names: landmarks, headings, what is typed into, lists and pictures", async (t) => {
  const pending = [row("db", 2)];
  const { page } = await open(t, [manager(ORIGIN, { held: [row("db", 1, { granted: 1 })], pending })]);
  await page.untilShows({ state: "Live" });
  const { nodes } = await page.call("Accessibility.getFullAXTree");
  const found = nodes.filter((it) => !it.ignored).map((it) => [it.role?.value, it.name?.value]);
  const has = (role, name) => assert.ok(found.some((it) => it[0] === role && name.test(it[1])), `${role} ${name}`);
  has("banner", /^$/);
  has("main", /^$/);
  has("contentinfo", /^$/);
  has("search", /^What is shown$/);
  has("status", /^$/);
  has("searchbox", /^Filter$/);
  has("checkbox", /^Only names that are waited for$/);
  has("button", /^Pause$/);
  for (const it of [/^weblocks$/, /^https:\/\/a\.test/, /^db/]) has("heading", it);
  has("list", /^Held by$/);
  has("list", /^Waiting, in this order$/);
  has("image", /^The last minute: held 1 time, at most 1 waiting$/);
});

test("who wants less motion sees lanes move with each look alone", async (t) => {
  const count = `new Promise((resolve) => {
    const lane = document.querySelector(".lane");
    let moves = 0;
    new MutationObserver((all) => (moves += all.length)).observe(lane.firstChild, { attributes: true });
    setTimeout(() => resolve(moves), 2000);
  })`;
  for (const [motion, isStill] of [["no-preference", false], ["reduce", true]]) {
    const { page } = await open(t, [manager(ORIGIN, { held: [row("db", 1, { granted: 1 })] })], { motion });
    await page.untilShows({ state: "Live" });
    const moves = await page.evaluate(count);
    assert.equal(moves <= 5, isStill, `${moves} moves`);
  }
});

test("nothing else than the page's own script may run", async (t) => {
  const { page } = await open(t, []);
  await page.untilShows({ state: "Live" });
  await page.evaluate(`document.body.append(document.createElement("script")),
    document.querySelector("body > script:last-child").textContent = "document.title = 'run'"`);
  const tried = `(() => {
    const it = document.createElement("div");
    it.innerHTML = "<img src=x onerror=\\"document.title = 'run'\\"><p style='color: red' onclick='1'>";
    document.body.append(it);
    return fetch("http://localhost:1/").then(() => "fetched", () => "refused");
  })()`;
  assert.equal(await page.evaluate(tried), "refused");
  await sleep(500);
  assert.equal(await page.evaluate("document.title"), "weblocks");
  assert.ok(page.faults.length >= 3, page.faults.join("\n"));
});

test("times are told in the largest two units", async (t) => {
  const ages = [0.04, 9.94, 59.4, 61, 3599, 3661, 172_799, 172_801];
  const { page } = await open(t, [manager(ORIGIN, { pending: ages.map((asked, at) => row("db", at + 1, { asked })) })]);
  const { names } = await page.untilShows({ state: "Live" });
  const [first, second, ...rest] = names[`${ORIGIN} db`].times;
  assert.match(first, /^ [0-9]\.[0-9] s$/);
  assert.match(second, /^ (9\.9|1[0-9]) s$/);
  assert.match(rest.join(","), /^ (59 s|1 min [0-9] s), 1 min [1-9] s, (59 min 59 s|1 h 0 min), 1 h 1 min, /);
  assert.match(rest.join(","), /, (47 h 59 min|2 d 0 h), 2 d 0 h$/);
});
