/**
 * The server of the example pages: their files, the packages, and a database that knows nothing of locks.
 *
 * usage: node examples/pages/server.mjs [PORT]
 *
 * It listens on 127.0.0.1, on port 8000 unless another is given (0 is a free one), and prints the URLs of the two pages
 * that want a lock service. The third, tabs.html, wants the module of clients/wasm.
 */

import { readFile } from "node:fs/promises";
import { createServer } from "node:http";
import { extname } from "node:path";
import { text } from "node:stream/consumers";

const TOP = new URL("../../", import.meta.url);
const SERVED = /^\/(examples\/pages|clients\/js|clients\/wasm)\/[\w/.-]+\.(html|js|wasm)$/;
const TYPES = { ".html": "text/html; charset=utf-8", ".js": "text/javascript", ".wasm": "application/wasm" };

/** All that the database has: how many tickets are left. */
let tickets = 100;

/** `GET` gives the number as JSON, and `PUT` replaces it. */
async function answerDatabase(request, response) {
  if (request.method === "PUT") {
    tickets = JSON.parse(await text(request));
  }
  response.writeHead(200, { "Content-Type": "application/json", "Cache-Control": "no-store" });
  response.end(JSON.stringify(tickets));
}

async function answerFile(path, response) {
  if (!SERVED.test(path) || path.includes("..")) {
    response.writeHead(404).end();
    return;
  }
  const data = await readFile(new URL(path.slice(1), TOP));
  response.writeHead(200, { "Content-Type": TYPES[extname(path)] }).end(data);
}

async function answer(request, response) {
  const { pathname } = new URL(request.url, "http://localhost");
  try {
    await (pathname === "/database" ? answerDatabase(request, response) : answerFile(pathname, response));
  } catch (why) {
    response.writeHead(why.code === "ENOENT" ? 404 : 500).end(why.message);
  }
}

const port = process.argv[2] ?? "8000";
if (!/^\d+$/.test(port) || Number(port) > 65535) {
  console.error("usage: node examples/pages/server.mjs [PORT]");
  process.exit(2);
}
const server = createServer(answer);
server.on("error", ({ message }) => {
  console.error(`${message}: name another port behind server.mjs`);
  process.exit(1);
});
server.listen(Number(port), "127.0.0.1", () => {
  const pages = `http://127.0.0.1:${server.address().port}/examples/pages`;
  console.log(`${pages}/connect.html`);
  console.log(`${pages}/polyfill.html`);
});
