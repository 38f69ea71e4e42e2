/** The engine as `weblocks run`, a line at a time: for tests of what stands around an engine. */

import { execFileSync, spawn } from "node:child_process";
import { closeSync, mkdtempSync, openSync, readSync, rmSync, writeSync } from "node:fs";
import { tmpdir } from "node:os";
import { join } from "node:path";

const LF = 10;

export class PipedEngine {
  #child;
  #room;
  #input;
  #output;
  #rest = Buffer.alloc(0);

  constructor(program) {
    this.#room = mkdtempSync(join(tmpdir(), "weblocks-piped-"));
    const [input, output] = ["in", "out"].map((name) => join(this.#room, name));
    execFileSync("mkfifo", [input, output]);
    const words = ["-c", 'exec "$0" run <"$1" >"$2"', program, input, output];
    this.#child = spawn("sh", words, { stdio: ["ignore", "ignore", "inherit"] });
    this.#input = openSync(input, "w");
    this.#output = openSync(output, "r");
  }

  /** Writes a line and waits for its reply. */
  answer(line) {
    writeSync(this.#input, `${line}\n`);
    const piece = Buffer.alloc(65_536);
    for (let end = this.#rest.indexOf(LF); ; end = this.#rest.indexOf(LF)) {
      if (end >= 0) {
        const reply = this.#rest.subarray(0, end).toString();
        this.#rest = this.#rest.subarray(end + 1);
        return reply;
      }
      const size = readSync(this.#output, piece);
      if (size === 0) throw new Error("weblocks run has ended");
      this.#rest = Buffer.concat([this.#rest, piece.subarray(0, size)]);
    }
  }

  /** Ends the program. */
  end() {
    closeSync(this.#input);
    closeSync(this.#output);
    this.#child.kill("SIGKILL");
    rmSync(this.#room, { recursive: true, force: true });
  }
}
