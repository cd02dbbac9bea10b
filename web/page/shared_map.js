// A map of which copies share what they have in common: a copy costs what was changed since the one before, and not
// what is in it.

/** So many changes, or a part of the whole, are kept apart; more are put together with the rest. */
const MOST = 128;
const PART = 64;

export class SharedMap {
  #base;
  #own;

  /** How many entries it has. */
  size;

  /**
   * @param {Iterable<[any, any]>} entries
   * @param {Map<any, any>} own
   */
  constructor(entries = [], own = new Map()) {
    this.#base = entries instanceof Map ? entries : new Map(entries);
    this.#own = own;
    this.size = this.#base.size;
  }

  /** A map of its own with the same entries. */
  copy() {
    if (this.#own.size > Math.max(MOST, this.size / PART)) this.#join();
    const found = new SharedMap(this.#base, new Map(this.#own));
    found.size = this.size;
    return found;
  }

  #join() {
    this.#base = new Map(this);
    this.#own = new Map();
  }

  has(key) {
    return this.get(key) !== undefined;
  }

  get(key) {
    return this.#own.has(key) ? this.#own.get(key) : this.#base.get(key);
  }

  set(key, value) {
    if (!this.has(key)) this.size++;
    this.#own.set(key, value);
  }

  delete(key) {
    if (!this.has(key)) return;
    this.size--;
    if (this.#base.has(key)) this.#own.set(key, undefined);
    else this.#own.delete(key);
  }

  /** @returns {Generator<[any, any]>} */
  *[Symbol.iterator]() {
    for (const [key, value] of this.#base) {
      const own = this.#own.has(key) ? this.#own.get(key) : value;
      if (own !== undefined) yield [key, own];
    }
    for (const [key, value] of this.#own) {
      if (value !== undefined && !this.#base.has(key)) yield [key, value];
    }
  }

  *values() {
    for (const [, value] of this) yield value;
  }

  *keys() {
    for (const [key] of this) yield key;
  }
}
