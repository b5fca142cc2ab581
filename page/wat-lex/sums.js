// Counts of line feeds, or of UTF-16 code units, before any offset of a text. Counts for blocks are kept from the text's start on, and from its end
// backwards; they meet where the text was last changed. A change near the last one needs few new counts.
const BLOCK = 512;

// A growing list of unsigned 32-bit integers.
class Numbers {
  #numbers;
  length = 1;

  constructor(room) { this.#numbers = new Uint32Array(room + 1); }

  get last() { return this.#numbers[this.length - 1]; }
  at(i) { return this.#numbers[i]; }

  push(number) {
    if (this.length === this.#numbers.length) {
      const before = this.#numbers;
      this.#numbers = new Uint32Array(2 * this.length);
      this.#numbers.set(before);
    }
    this.#numbers[this.length] = number;
    this.length += 1;
  }

  // Returns the index of the first number that is at least `least`, or the length.
  firstFrom(least) {
    let low = 0, high = this.length;
    while (low < high) {
      const middle = (low + high) >>> 1;
      if (this.#numbers[middle] < least) low = middle + 1; else high = middle;
    }
    return low;
  }
}

export class Sums {
  // The counts of the first n blocks, by n, and of the last n blocks.
  #front;
  #back = new Numbers(0);

  // The functions count in the bytes, or in the four-byte words, from one index to another.
  constructor(bytes, inBytes, inWords) {
    Object.assign(this, { inBytes, inWords });
    this.look(bytes);
    this.#front = new Numbers(Math.floor(bytes.length / BLOCK));
    this.#reachFrom(bytes.length);
    this.total = this.before(bytes.length);
  }

  // Sets the view of the bytes. The first must be at a multiple of four in memory.
  look(bytes) {
    this.bytes = bytes;
    this.words = new Int32Array(bytes.buffer, bytes.byteOffset, bytes.length >>> 2);
  }

  // Counts in the bytes from one offset to another; by words if possible, at most a block at a time.
  #count(from, to) {
    if (((from | to) & 3) !== 0) return this.inBytes(this.bytes, from, to);
    let sum = 0;
    for (let at = from; at < to; at += BLOCK) sum += this.inWords(this.words, at >>> 2, Math.min(to, at + BLOCK) >>> 2);
    return sum;
  }

  // Makes the counts from the start cover exactly the blocks before an offset.
  #reachFrom(place) {
    const blocks = Math.floor(place / BLOCK) + 1;
    this.#front.length = Math.min(this.#front.length, blocks);
    for (let i = this.#front.length; i < blocks; i += 1) this.#front.push(this.#front.last + this.#count((i - 1) * BLOCK, i * BLOCK));
  }

  // Makes the counts from the end cover exactly the blocks after an offset.
  #reachTo(place) {
    const { length } = this.bytes;
    const blocks = Math.floor((length - place) / BLOCK) + 1;
    this.#back.length = Math.min(this.#back.length, blocks);
    for (let i = this.#back.length; i < blocks; i += 1) {
      const at = length - i * BLOCK;
      this.#back.push(this.#back.last + this.#count(at, at + BLOCK));
    }
  }

  // Prepares for the replacement of the bytes from `from` to `to`. Must be called before it.
  cut(from, to) {
    this.total -= this.before(to) - this.before(from);
    this.#reachTo(to);
    this.#reachFrom(from);
  }

  // Counts `more` new bytes from an offset on, after the replacement.
  put(from, more) {
    this.total += this.#count(from, from + more);
    this.#reachFrom(from + more);
  }

  // Returns the count before an offset.
  before(place) {
    const { length } = this.bytes;
    const left = Math.floor((length - place) / BLOCK);
    if (left < this.#back.length - 1 || place > BLOCK * this.#front.length) {
      return this.total - this.#back.at(left) - this.#count(place, length - left * BLOCK);
    }
    const blocks = Math.min(Math.floor(place / BLOCK), this.#front.length - 1);
    return this.#front.at(blocks) + this.#count(blocks * BLOCK, place);
  }

  // Returns the first offset before which the count is at least `sum`.
  placeOf(sum) {
    let { place, sum: found } = this.#blockOf(sum);
    while (found < sum) {
      found += this.#count(place, place + 1);
      place += 1;
    }
    return place;
  }

  // Returns the start of a block that contains the first offset with this count, or precedes it closely, and the count before it.
  #blockOf(sum) {
    if (sum > this.total - this.#back.last) {
      const blocks = this.#back.firstFrom(this.total - sum + 1);
      return { place: this.bytes.length - blocks * BLOCK, sum: this.total - this.#back.at(blocks) };
    }
    const blocks = Math.max(0, this.#front.firstFrom(sum) - 1);
    return { place: blocks * BLOCK, sum: this.#front.at(blocks) };
  }
}
