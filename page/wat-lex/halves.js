// The lone surrogates of a JavaScript string. UTF-8 cannot represent them, so a text has U+FFFD instead, which is also one UTF-16 code unit. Two halves
// of a surrogate pair that a change puts next to each other are a character.
import { firstFrom } from './rows.js';

// Returns the lone surrogates of a string, in order. Their offsets count from `from`.
function halvesOf(string, from) {
  if (string.isWellFormed?.()) return [];
  return Array.from(string.matchAll(/\p{Surrogate}/gu), ({ 0: half, index }) => ({ at: from + index, half }));
}

export class Halves {
  #all;

  constructor(string) { this.#all = halvesOf(string, 0); }

  // Returns the index of the first lone surrogate at or after an offset, or their number.
  #indexFrom(offset) { return firstFrom(this.#all.length, (i) => this.#all[i].at, offset); }

  // Returns the lone surrogate at an offset, or an empty string.
  #halfAt(offset) {
    const next = this.#all[this.#indexFrom(offset)];
    return next?.at === offset ? next.half : '';
  }

  // Returns a change that also replaces the lone surrogates next to the range, so that the piece can complete their pairs.
  widened(start, end, piece) {
    const before = this.#halfAt(start - 1), after = this.#halfAt(end);
    return { start: start - before.length, end: end + after.length, piece: before + piece + after };
  }

  // Records that a change replaced the string from `start` to `end` by `piece`.
  change(start, end, piece) {
    const more = piece.length - (end - start);
    const before = this.#all.slice(0, this.#indexFrom(start));
    const after = this.#all.slice(this.#indexFrom(end)).map(({ at, half }) => ({ at: at + more, half }));
    this.#all = [...before, ...halvesOf(piece, start), ...after];
  }
}
