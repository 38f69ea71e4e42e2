/** A server of the package's files on 127.0.0.1, which a browser takes for a secure context. */

import { once } from "node:events";
import { readFile } from "node:fs/promises";
import { createServer } from "node:http";
import { extname, join, normalize } from "node:path";
import { fileURLToPath } from "node:url";

const TYPES = { ".html": "text/html; charset=utf-8", ".js": "text/javascript", ".json": "application/json" };

/** The folder of the package. */
export const PACKAGE = fileURLToPath(new URL("../../", import.meta.url));

async function answer(top, pages, request, response) {
  const path = normalize(decodeURIComponent(new URL(request.url, "http://localhost").pathname));
  try {
    const page = pages[path] ?? (await readFile(join(top, path)));
    const data = typeof page === "function" ? await page(request) : page;
    const type = TYPES[extname(path)] ?? "application/octet-stream";
    // (a module that a sandboxed page imports comes from another origin)
    const headers = { "Access-Control-Allow-Origin": "*", "Cache-Control": "max-age=600" };
    response.writeHead(200, { "Content-Type": type, ...headers });
    response.end(data);
  } catch {
    response.writeHead(404).end();
  }
}

/**
 * Serves the files below a folder as they stand, and further pages by their paths: each as it is, or as a function
 * of the request gives it.
 *
 * @returns {Promise<{url: string, end: () => Promise<void>}>} the URL has no slash at its end
 */
export async function serveFiles(top = PACKAGE, pages = {}) {
  const server = createServer((request, response) => answer(top, pages, request, response));
  server.listen(0, "127.0.0.1");
  await once(server, "listening");
  const end = async () => {
    server.closeAllConnections();
    server.close();
    await once(server, "close");
  };
  return { url: `http://127.0.0.1:${server.address().port}`, end };
}
