// Conversion of offsets between UTF-8 bytes and UTF-16 code units, which JavaScript counts.
import { Sums } from './sums.js';

// In bytes: the distance within which the next converted offset usually is.
const NEAR = 512;
// The highest bit of each byte of a word.
const FIRST_BITS = 0x80808080 | 0;

const bitsOf = (firstBits) => Math.imul(firstBits >>> 7, 0x01010101) >>> 24;

// Counts the UTF-16 code units of a range of bytes. A character counts at its first byte, and its other bytes count 0.
function inBytes(bytes, from, to) {
  let units = 0;
  for (let at = from; at < to; at += 1) if ((bytes[at] & 0xc0) !== 0x80) units += bytes[at] < 0xf0 ? 1 : 2;
  return units;
}

function inWords(words, from, to) {
  let units = 4 * (to - from);
  for (let i = from; i < to; i += 1) {
    const word = words[i], first = word & FIRST_BITS;
    if (first !== 0) units += bitsOf(first & (word << 1) & (word << 2) & (word << 3)) - bitsOf(first & ~(word << 1));
  }
  return units;
}

export class Units {
  #sums;
  // The offset converted last, since the next one usually follows closely.
  #byte = 0;
  #units = 0;

  constructor(bytes) {
    this.bytes = bytes;
    this.#sums = new Sums(bytes, inBytes, inWords);
  }

  // Sets the view of the text's bytes, after the memory or the length has changed.
  look(bytes) {
    this.bytes = bytes;
    this.#sums.look(bytes);
  }

  // Prepares for the replacement of the bytes from `from` to `to`. Must be called before it.
  cut(from, to) { this.#sums.cut(from, to); }

  // Counts `more` new bytes from an offset on, after the replacement.
  put(from, more) {
    this.#sums.put(from, more);
    [this.#byte, this.#units] = [0, 0];
  }

  get length() { return this.#sums.total; }
  get #isPlain() { return this.length === this.bytes.length; }

  // Returns the number of UTF-16 code units before a byte offset.
  at(byte) {
    if (this.#isPlain) return byte;
    const isNear = byte >= this.#byte && byte - this.#byte <= NEAR;
    this.#units = isNear ? this.#units + inBytes(this.bytes, this.#byte, byte) : this.#sums.before(byte);
    this.#byte = byte;
    return this.#units;
  }

  // Returns the byte offset of an offset in UTF-16 code units. Throws a `RangeError` past the end of the text and inside a character.
  byteAt(units) {
    if (!(units >= 0 && units <= this.length)) throw new RangeError(`the text has no place ${units}`);
    if (this.#isPlain) return units;
    let byte = this.#sums.placeOf(units);
    while ((this.bytes[byte] & 0xc0) === 0x80) byte += 1;
    if (this.at(byte) !== units) throw new RangeError(`place ${units} is within a character`);
    return byte;
  }
}
