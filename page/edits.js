// Changes in the text area: the range that changed, and the conversion of the text area's positions to byte offsets, also in the formatted text.
import { CARRIAGE_RETURN, LINE_FEED } from './wat-lex/lines.js';
import { WHITE_SPACE } from './wat-lex/tokens.js';

const BLANK = 32;

// Returns the number of UTF-16 code units, at most `most`, that two texts share from these offsets on. Compares slices, since an engine compares them
// by words.
function common(one, other, oneFrom, otherFrom, most) {
  let low = 0, high = most;
  while (low < high) {
    const middle = (low + high + 1) >>> 1;
    if (one.slice(oneFrom + low, oneFrom + middle) === other.slice(otherFrom + low, otherFrom + middle)) low = middle; else high = middle - 1;
  }
  return low;
}

// Returns the number of UTF-16 code units, at most `most`, that two texts share at their ends.
function commonAtEnd(one, other, most) {
  let low = 0, high = most;
  while (low < high) {
    const middle = (low + high + 1) >>> 1;
    const isSame = one.slice(one.length - middle, one.length - low) === other.slice(other.length - middle, other.length - low);
    if (isSame) low = middle; else high = middle - 1;
  }
  return low;
}

const isFirstOfPair = (unit) => unit >= 0xd800 && unit < 0xdc00;
const isSecondOfPair = (unit) => unit >= 0xdc00 && unit < 0xe000;

// Returns the range of a text, in UTF-16 code units, that a new text replaces, and the replacement. Never splits a surrogate pair.
export function changeOf(before, after) {
  const least = Math.min(before.length, after.length);
  let from = common(before, after, 0, 0, least);
  if (from > 0 && isFirstOfPair(before.charCodeAt(from - 1))) from -= 1;
  let same = commonAtEnd(before, after, least - from);
  if (same > 0 && isSecondOfPair(before.charCodeAt(before.length - same))) same -= 1;
  return { from, to: before.length - same, text: after.slice(from, after.length - same) };
}

const sizeOf = (first) => (first < 0x80 ? 1 : first < 0xe0 ? 2 : first < 0xf0 ? 3 : 4);

// Returns the number of UTF-16 code units of a character in a text area, by its first byte. A line end is one unit there, CR LF as well.
function unitsOf(first) {
  if (first === CARRIAGE_RETURN) return 0;
  return first < 0xf0 ? 1 : 2;
}

// Converts positions of the text area to byte offsets. The last one is cached, since the next is usually near it; it stays valid as long as the text
// before it is unchanged.
export class Places {
  #units = 0;
  #at = 0;

  byteAt(bytes, units) {
    if (this.#units < units) this.#goOn(bytes, units); else this.#goBack(bytes, units);
    return this.#at;
  }

  #goOn(bytes, units) {
    while (this.#units < units && this.#at < bytes.length) {
      const first = bytes[this.#at];
      this.#units += unitsOf(first);
      this.#at += sizeOf(first);
    }
  }

  #goBack(bytes, units) {
    while (this.#units > units) {
      do this.#at -= 1; while ((bytes[this.#at] & 0xc0) === 0x80);
      this.#units -= unitsOf(bytes[this.#at]);
    }
    if (this.#at > 0 && bytes[this.#at - 1] === CARRIAGE_RETURN) this.#at -= 1;
  }
}

// Returns the offset in the formatted text of an offset in the text: in the same token, or before the next one.
export function placeInLayout(tokens, laidOut, place) {
  let at = 0;
  for (let i = 0; i < tokens.count; i += 1) {
    if (tokens.code(i) === WHITE_SPACE) continue;
    while (laidOut[at] === BLANK || laidOut[at] === LINE_FEED) at += 1;
    if (place < tokens.end(i)) return at + Math.max(0, place - tokens.start(i));
    at += tokens.end(i) - tokens.start(i);
  }
  return laidOut.length;
}
