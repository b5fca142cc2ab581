// The tokens of a text by index: the start, the end and the kind of each.
import { KINDS } from './lexer.js';
import { Rows } from './rows.js';

export const WHITE_SPACE = 3;
export const OPENING = 4;
export const CLOSING = 5;
export const ANNOTATION = 9;
export const AT_SIGN = 64;

// Returns the rows that one call of the module has written.
function rowsOf({ rows: numbers, count }) {
  const rows = new Rows(numbers);
  rows.front = count;
  return rows;
}

export class Tokens {
  #rows;

  // Creates the tokens of a reader, or of the result of one call of the module.
  constructor(found) {
    this.count = found.count;
    this.#rows = found.rows instanceof Rows ? found.rows : rowsOf(found);
    // Whether the text ends after the last token.
    this.isWhole = found.ending === 'whole';
  }

  end(i) { return this.#rows.end(i); }
  start(i) { return i > 0 ? this.end(i - 1) : 0; }
  code(i) { return this.#rows.code(i); }
  kind(i) { return KINDS[this.code(i)]; }

  // Returns `true` if the token is whitespace or a comment.
  isBlank(i) { return this.code(i) < OPENING; }
  isParenthesis(i) { return this.code(i) === OPENING || this.code(i) === CLOSING; }

  // Returns the index of the token that contains a byte, or `count`.
  at(offset) {
    let low = 0, high = this.count;
    while (low < high) {
      const middle = (low + high) >>> 1;
      if (this.end(middle) > offset) high = middle; else low = middle + 1;
    }
    return low;
  }

  // Returns the index of the token at an offset, of the last token if the text ends at this offset, or -1.
  held(place) {
    const at = this.at(place);
    if (at < this.count) return at;
    return this.isWhole && this.count > 0 && place === this.end(this.count - 1) ? this.count - 1 : -1;
  }

  // Returns the parenthesis directly after or before an offset, and the matching one, if there are any.
  pair(place) {
    const here = this.parenthesisAt(place);
    if (here < 0) return [];
    const other = this.partner(here);
    return other < 0 ? [here] : [here, other];
  }

  parenthesisAt(place) {
    const after = this.at(place), before = this.at(place - 1);
    if (after < this.count && this.isParenthesis(after) && this.start(after) === place) return after;
    return place > 0 && before < this.count && this.isParenthesis(before) && this.end(before) === place ? before : -1;
  }

  // Returns the index of the matching parenthesis, or -1.
  partner(here) {
    const step = this.code(here) === OPENING ? 1 : -1;
    let depth = 0;
    for (let i = here; i >= 0 && i < this.count; i += step) {
      if (this.code(i) === OPENING) depth += 1;
      if (this.code(i) === CLOSING) depth -= 1;
      if (depth === 0) return i;
    }
    return -1;
  }
}
