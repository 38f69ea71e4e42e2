/** The engine of scripts as a WebAssembly module: a line of a script in, its reply out. */

const SEED_BYTES = 16;

/** What the engine takes, without its LF. */
export const LINE_BYTES = 65_536;

/** A call answers by two words of memory, its pointers, which stand before the line that it is given. */
const WORD_BYTES = 8;
const WORDS_BYTES = 2 * WORD_BYTES;

/** What a call of the module answers by, where it isn't 0 (clients/c/weblocks.h). */
const FAULTS = {
  1: "the engine has no memory left, and its world is gone",
  2: "the engine's world is gone",
  3: "the engine keeps no books",
  5: `a line has more than ${LINE_BYTES} bytes`,
  6: "a line has an LF",
};

/** A line wasn't answered. */
export class EngineError extends Error {
  /**
   * @param {string} message
   * @param {boolean} isOver whether the engine answers no further line
   */
  constructor(message, isOver) {
    super(message);
    this.name = "EngineError";
    this.isOver = isOver;
  }
}

/**
 * Loads the module, which `clients/wasm/build` makes.
 *
 * @param {string | URL | BufferSource} source where it is, or its bytes
 * @returns {Promise<WebAssembly.Module>} rejected with a TypeError where it isn't there, and with a CompileError where
 *   this browser has no 64-bit memories
 */
export async function loadModule(source) {
  if (typeof source !== "string" && !(source instanceof URL)) return WebAssembly.compile(source);
  const answer = await fetch(source);
  if (!answer.ok) throw new TypeError(`${source} can't be had: status ${answer.status}`);
  return WebAssembly.compile(await answer.arrayBuffer());
}

/** One world: all its origins and agents. It is for one caller at a time, and answers at once. */
export class Engine {
  #module;
  #world;
  #area;
  #encoder = new TextEncoder();
  #decoder = new TextDecoder();

  /**
   * Makes a world in which nobody has opened.
   *
   * @param {WebAssembly.Module} module as `loadModule` gives it
   * @param {{seed?: Uint8Array, keepsBooks?: boolean}} [options] 16 bytes that spread names over the engine's tables,
   *   random unless given; and whether `audit` is to be asked, for which each line is kept
   * @throws {EngineError} where there is no memory for it
   */
  constructor(module, { seed = randomSeed(), keepsBooks = false } = {}) {
    this.#module = new WebAssembly.Instance(module).exports;
    this.#area = this.#call(({ weblocks_allocate }) => weblocks_allocate(BigInt(WORDS_BYTES + LINE_BYTES)));
    if (this.#area === 0n) throw fault(1);
    this.#place(SEED_BYTES).set(seed);
    const made = ({ weblocks_new }) => weblocks_new(this.#line, keepsBooks ? 1 : 0, this.#area);
    this.#check(this.#call(made));
    this.#world = this.#word(0);
  }

  /**
   * Answers a line of a script.
   *
   * @param {string | Uint8Array} line one JSON text, with its member `agent`, without an LF; or its bytes
   * @returns {string} the reply, without an LF
   * @throws {EngineError} where the line is too long or has an LF, which changes nothing; or where memory has run out,
   *   after which the world is gone
   */
  answer(line) {
    const size = BigInt(typeof line === "string" ? this.#putText(line) : this.#putBytes(line));
    return this.#reply(({ weblocks_answer }, reply, length) =>
      weblocks_answer(this.#world, this.#line, size, reply, length),
    );
  }

  /**
   * Replays the journal of each manager against the machine.
   *
   * @returns {string} what `weblocks audit` writes for the lines so far
   * @throws {EngineError} where the world keeps no books, or is gone
   */
  audit() {
    return this.#reply(({ weblocks_audit }, reply, length) => weblocks_audit(this.#world, reply, length));
  }

  /** How many bytes of memory the engine has taken. */
  get memoryBytes() {
    return this.#memory.byteLength;
  }

  /** Puts a line at its place, and gives how many bytes it has. */
  #putText(line) {
    const { read, written } = this.#encoder.encodeInto(line, this.#place(LINE_BYTES));
    if (read < line.length) throw fault(5);
    return written;
  }

  #putBytes(line) {
    if (line.length > LINE_BYTES) throw fault(5);
    this.#place(LINE_BYTES).set(line);
    return line.length;
  }

  /** The text that a call answers with. */
  #reply(run) {
    this.#check(this.#call((exports) => run(exports, this.#area, this.#area + BigInt(WORD_BYTES))));
    const reply = new Uint8Array(this.#memory, Number(this.#word(0)), Number(this.#word(WORD_BYTES)));
    return this.#decoder.decode(reply);
  }

  /** What a trap leaves behind can't be relied on, so a module that trapped isn't called again. */
  #call(run) {
    if (this.#module === null) throw fault(2);
    try {
      return run(this.#module);
    } catch (trap) {
      this.#module = null;
      throw new EngineError(`the engine trapped: ${trap.message}`, true);
    }
  }

  #check(code) {
    if (code !== 0) throw fault(code);
  }

  /** The memory, which is another buffer once it has grown. */
  get #memory() {
    if (this.#module === null) throw fault(2);
    return this.#module.memory.buffer;
  }

  /** Where a line stands, as the module knows it. */
  get #line() {
    return this.#area + BigInt(WORDS_BYTES);
  }

  /** The place of a line, of which so many bytes are wanted. */
  #place(length) {
    return new Uint8Array(this.#memory, Number(this.#line), length);
  }

  #word(offset) {
    return new DataView(this.#memory).getBigUint64(Number(this.#area) + offset, true);
  }
}

function randomSeed() {
  return crypto.getRandomValues(new Uint8Array(SEED_BYTES));
}

function fault(code) {
  return new EngineError(FAULTS[code] ?? `the engine answered ${code}`, code <= 2);
}
