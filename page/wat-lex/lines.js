// The bytes of a text, and the offsets at which its lines begin.
import { Sums } from './sums.js';

export const LINE_FEED = 10;
export const CARRIAGE_RETURN = 13;

function inBytes(bytes, from, to) {
  let feeds = 0;
  for (let at = from; at < to; at += 1) if (bytes[at] === LINE_FEED) feeds += 1;
  return feeds;
}

// Counts the line feeds of words. Each byte lane of `feeds` counts those in its lane, and must not overflow.
function inWords(words, from, to) {
  let feeds = 0;
  for (let i = from; i < to; i += 1) {
    const others = words[i] ^ 0x0a0a0a0a;
    feeds += ~(((others & 0x7f7f7f7f) + 0x7f7f7f7f) | others | 0x7f7f7f7f) >>> 7;
  }
  return (feeds & 0xff) + ((feeds >>> 8) & 0xff) + ((feeds >>> 16) & 0xff) + (feeds >>> 24);
}

export class Lines {
  #feeds;

  constructor(bytes) {
    this.bytes = bytes;
    this.#feeds = new Sums(bytes, inBytes, inWords);
  }

  // Sets the view of the text's bytes, after the memory or the length has changed.
  look(bytes) {
    this.bytes = bytes;
    this.#feeds.look(bytes);
  }

  // Prepares for the replacement of the bytes from `from` to `to`. Must be called before it.
  cut(from, to) { this.#feeds.cut(from, to); }

  // Counts `more` new bytes from an offset on, after the replacement.
  put(from, more) { this.#feeds.put(from, more); }

  get count() { return this.#feeds.total + 1; }

  // Returns the offset at which a line begins: after the line feed that ends the line before it.
  start(line) { return this.#feeds.placeOf(line); }

  // Returns the offset at which the next line begins, or the length of the text.
  end(line) { return line + 1 < this.count ? this.start(line + 1) : this.bytes.length; }

  // Returns the index of the line that contains an offset.
  at(offset) { return this.#feeds.before(offset); }

  // Returns the char boundary at or before an offset; `on` returns the one at or after it.
  back(offset) {
    let at = Math.max(0, Math.min(offset, this.bytes.length));
    while (at > 0 && at < this.bytes.length && (this.bytes[at] & 0xc0) === 0x80) at -= 1;
    return at;
  }

  on(offset) {
    let at = Math.max(0, Math.min(offset, this.bytes.length));
    while (at < this.bytes.length && (this.bytes[at] & 0xc0) === 0x80) at += 1;
    return at;
  }
}
