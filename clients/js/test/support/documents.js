/** The programs that the repository's documents show. */

import { readFile } from "node:fs/promises";
import { fileURLToPath } from "node:url";

/** The top of the repository. */
export const TOP = fileURLToPath(new URL("../../../../", import.meta.url));

/** The server that the documents' programs connect to. */
const SHOWN_URL = "ws://127.0.0.1:8080";

/**
 * The first block of this kind in a document, as it stands but for the server's URL.
 *
 * @param {string} path the document's, from the top of the repository
 * @param {string} kind as "js" or "html"
 * @param {string} url the server that it is to connect to
 */
export async function firstProgram(path, kind, url) {
  const document = await readFile(`${TOP}/${path}`, "utf8");
  const block = document.match(new RegExp(`^\`\`\`${kind}\n(.*?)^\`\`\`$`, "ms"));
  if (!block?.[1].includes(SHOWN_URL)) throw new Error(`${path} shows no program of the kind ${kind}`);
  return block[1].replaceAll(SHOWN_URL, url);
}
