/** A list whose first element leaves first, whatever its length, in constant time. */
export class Queue {
  #items = [];
  #first = 0;

  /** How many elements stand in it. */
  get size() {
    return this.#items.length - this.#first;
  }

  /** Adds an element at the end. */
  push(item) {
    this.#items.push(item);
  }

  /** The first element, or undefined. */
  peek() {
    return this.#items[this.#first];
  }

  /** Takes the first element out, or gives undefined. */
  shift() {
    const item = this.#items[this.#first];
    if (this.size === 0) return undefined;
    this.#items[this.#first] = undefined;
    this.#first += 1;
    if (this.#first * 2 > this.#items.length) this.#dropTaken();
    return item;
  }

  #dropTaken() {
    this.#items = this.#items.slice(this.#first);
    this.#first = 0;
  }
}
