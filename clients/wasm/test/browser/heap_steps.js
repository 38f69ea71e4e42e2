/** Steps on the module's heap in a page: each function throws an Error where the heap does what it mustn't. */

import { makeExports } from "./module_steps.js";

/** The heap's functions, as compiled code calls them: what they answer is at a place that the caller names. */
class Heap {
  #exports;
  #answer;

  constructor(exports) {
    this.#exports = exports;
    this.#answer = exports.weblocks_allocate(16n);
  }

  get bytes() {
    return new Uint8Array(this.#exports.memory.buffer);
  }

  /** The block's place, or null. */
  #told() {
    const view = new DataView(this.#exports.memory.buffer, Number(this.#answer), 16);
    return view.getUint8(0) === 1 ? Number(view.getBigUint64(8, true)) : null;
  }

  alloc(size) {
    this.#exports.rattle_alloc(this.#answer, BigInt(size), 16n);
    return this.#told();
  }

  realloc(at, kept, size) {
    this.#exports.rattle_realloc(this.#answer, BigInt(at), BigInt(kept), BigInt(size), 16n);
    return this.#told();
  }

  free(at) {
    this.#exports.rattle_dealloc(BigInt(at));
  }
}

async function makeHeap() {
  return new Heap(await makeExports());
}

function expect(holds, what) {
  if (!holds) throw new Error(`not so: ${what}`);
}

/** Numbers below a limit, the same in each run. */
function numbers(seed) {
  let state = seed;
  return (limit) => {
    state = (Math.imul(state, 1664525) + 1013904223) >>> 0;
    return Math.floor((state / 2 ** 32) * limit);
  };
}

/** Blocks of the heap, each full of a mark of its own. */
class Blocks {
  #heap;
  #all = [];
  #marks = 0;

  constructor(heap) {
    this.#heap = heap;
  }

  get count() {
    return this.#all.length;
  }

  add(at, size) {
    expect(at !== null && at % 16 === 0, "a block is aligned to 16 bytes");
    this.#marks += 1;
    const mark = this.#marks % 251;
    this.#heap.bytes.fill(mark, at, at + size);
    this.#all.push({ at, size, mark });
  }

  /** Takes a block out, which is as it was left. */
  take(place) {
    const [block] = this.#all.splice(place, 1);
    this.check(block, block.size);
    return block;
  }

  check({ at, mark }, size) {
    expect(this.#heap.bytes.subarray(at, at + size).every((byte) => byte === mark), "a block keeps what is in it");
  }

  checkAll() {
    for (const block of this.#all) this.check(block, block.size);
  }
}

/** Allocates, resizes and frees blocks of all sizes at random. */
export async function stepAtRandom(seed, steps) {
  const heap = await makeHeap();
  const random = numbers(seed);
  const blocks = new Blocks(heap);
  const size = () => Math.floor(2 ** (random(17) + random(1000) / 1000));
  for (let step = 0; step < steps; step += 1) {
    const what = random(blocks.count < 200 ? 3 : 5);
    if (what < 2 || blocks.count === 0) {
      const wanted = size();
      blocks.add(heap.alloc(wanted), wanted);
    } else if (what === 2) {
      const block = blocks.take(random(blocks.count));
      const wanted = size();
      const at = heap.realloc(block.at, block.size, wanted);
      blocks.check({ ...block, at }, Math.min(block.size, wanted));
      blocks.add(at, wanted);
    } else {
      heap.free(blocks.take(random(blocks.count)).at);
    }
  }
  blocks.checkAll();
  return blocks.count;
}

/** By how many bytes the memory grows while blocks of a megabyte come and go. */
export async function growthOfReuse() {
  const heap = await makeHeap();
  const turn = () => heap.free(heap.realloc(heap.alloc(1 << 20), 1 << 20, 3 << 20));
  turn();
  const before = heap.bytes.length;
  for (let turns = 0; turns < 1000; turns += 1) turn();
  return heap.bytes.length - before;
}

/** Whether what can't be had is null, and a block that can't grow stays as it was. */
export async function refuseGrowth() {
  const heap = await makeHeap();
  const blocks = new Blocks(heap);
  const sizes = [2n ** 64n - 1n, 2n ** 63n, 2n ** 40n, 2n ** 39n];
  const refused = sizes.map((size) => heap.alloc(size));
  const at = heap.alloc(100);
  blocks.add(at, 100);
  refused.push(heap.realloc(at, 100, 2n ** 39n));
  blocks.add(heap.alloc(100), 100);
  blocks.checkAll();
  return refused.every((place) => place === null);
}
