// A text and its tokens, lexed in parts. After a change little is lexed again: a token depends only on its own characters and on the next one, so the
// tokens that end before the change stay. From the first offset after the changed bytes at which a token begins, and began before the change, the
// tokens are the earlier ones, shifted.
import { LINE_FEED, Lines } from './lines.js';
import { Rows, firstFrom } from './rows.js';

// In bytes: the length of a part, directly after a change, and at most.
const FIRST_PART = 512;
const PART = 1 << 16;

// The rows before the gap are the tokens that are lexed. The rows after the gap were kept from an earlier pass and adjusted for all changes since;
// the first of them begins `#keptFrom` bytes before the text's end. When lexing reaches that offset, they are joined, and the rest of the text is
// known.
export class Reader {
  // Counts over the text that are updated with its changes: its lines, and those that the caller of `open` adds.
  measures = [];
  #lexer;
  #flags = {};
  #place = 0;
  #isJoined = false;
  #keptFrom = 0;
  #step = PART;
  // Stretches of the text that are lexed elsewhere, in order, with their rows once they are known.
  #ahead = [];

  constructor(lexer) {
    this.#lexer = lexer;
    this.open(new Uint8Array(), {});
  }

  // Opens a text, of which nothing is lexed yet. A text that is not UTF-8, or is too long, is never lexed.
  open(given, flags) {
    this.#lexer.reserve(given.length);
    this.measures = [];
    this.#look(given.length);
    this.bytes.set(given);
    this.lines = new Lines(this.bytes);
    this.measures.push(this.lines);
    this.restart(flags);
  }

  // Starts to lex the text again, with these flags.
  restart(flags) {
    this.#flags = flags;
    this.#forget();
    const found = this.#lexer.tell(0, this.bytes.length, 0, 0, flags);
    if (found.ending === 'not UTF-8' || found.ending === 'too long') this.#end(found);
  }

  // Replaces the bytes from `from` to `to` by `piece`. All three must consist of whole characters, and the text must be UTF-8.
  change(from, to, piece) {
    const { length } = this.bytes;
    const more = piece.length - (to - from);
    const isElsewhere = this.#lexer.reserve(length + more);
    this.#look(length);
    for (const measure of this.measures) measure.cut(from, to);
    if (isElsewhere) this.#forget(); else this.#keep(from, to);
    this.#look(Math.max(length, length + more));
    this.bytes.copyWithin(from + piece.length, to, length);
    this.bytes.set(piece, from);
    this.#look(length + more);
    for (const measure of this.measures) measure.put(from, piece.length);
  }

  // The offset up to which the text is lexed.
  get place() { return this.#place; }

  // Announces that the bytes between two offsets are lexed elsewhere. Stretches are announced in order.
  expect(from, to) { this.#ahead.push({ from, to, rows: null }); }

  // Delivers the rows of the stretch that begins at `from`, the first of which begins there, or withdraws the stretch if there are none.
  give(from, rows) {
    const at = this.#ahead.findIndex((it) => it.from === from);
    if (at < 0) return;
    if (rows?.length > 0) this.#ahead[at].rows = rows; else this.#ahead.splice(at, 1);
  }

  // Whether the bytes at the current offset are lexed elsewhere and may be delivered soon.
  get #isAwaiting() {
    while (this.#ahead.length > 0 && this.#ahead[0].to <= this.#place) this.#ahead.shift();
    const [next] = this.#ahead;
    return next !== undefined && next.rows === null && next.from <= this.#place;
  }

  // Lexes until the text or the time ends, or one part of a stretch that may be delivered soon is lexed. Returns `true` if the text has ended.
  readOn(until = Infinity) {
    while (this.ending === null) {
      const isAwaiting = this.#isAwaiting;
      this.#readPart();
      if (this.ending === null && (isAwaiting || performance.now() >= until)) return false;
    }
    return true;
  }

  // The number of known tokens: those up to the current offset.
  get count() { return this.#isJoined ? this.rows.count : this.rows.front; }

  endOf(i) { return this.rows.end(i); }

  // Renews the views of the memory, which may have moved when it grew.
  #look(length) {
    this.bytes = this.#lexer.bytes(length);
    this.rows?.look(this.#lexer.rows(), length);
    for (const measure of this.measures) measure.look(this.bytes);
  }

  #end({ ending, offset = 0, line = 0, column = 0, message = '' }) { Object.assign(this, { ending, offset, line, column, message }); }

  #forget() {
    this.#ahead = [];
    this.rows = new Rows(this.#lexer.rows(), this.bytes.length);
    this.#isJoined = false;
    this.#place = 0;
    this.#step = PART;
    this.#end({ ending: null });
  }

  // Keeps the tokens before a change, and those after it. If this pass has none after it, keeps those of the earlier pass.
  #keep(from, to) {
    this.#ahead = [];
    const endOf = (i) => this.endOf(i), { count, rows } = this;
    const first = firstFrom(count, endOf, from);
    const next = to === 0 ? 0 : firstFrom(count, endOf, to) + 1;
    if (next < count) {
      if (!this.#isJoined) rows.forgetBack();
      this.#keptFrom = this.bytes.length - (next > 0 ? this.endOf(next - 1) : 0);
      rows.open(first, next);
    } else {
      if (this.#isJoined) rows.open(first, count); else rows.front = first;
      this.#leave(to);
    }
    this.#isJoined = false;
    this.#place = rows.frontEnd;
    this.#step = FIRST_PART;
    this.#end({ ending: null });
  }

  // Drops the kept tokens that begin before an offset.
  #leave(place) {
    const { rows } = this;
    while (rows.hasBack && this.bytes.length - this.#keptFrom < place) this.#keptFrom = rows.drop();
  }

  #join() { return this.#joinKept() || this.#joinAhead(); }

  // Appends the tokens that were lexed elsewhere, if one of them begins at the current offset. Returns `true` if so.
  #joinAhead() {
    while (this.#ahead.length > 0 && this.#ahead[0].rows !== null) {
      const { from, rows } = this.#ahead[0];
      const next = from < this.#place ? firstFrom(rows.length / 2, (i) => rows[2 * i], this.#place) + 1 : 0;
      if (2 * next < rows.length) {
        if ((next > 0 ? rows[2 * next - 2] : from) !== this.#place) return false;
        this.#part();
        this.rows.put(rows.subarray(2 * next));
        this.#place = this.rows.frontEnd;
        this.#ahead.shift();
        return true;
      }
      this.#ahead.shift();
    }
    return false;
  }

  // Joins the kept tokens, if the first of them begins at the current offset. Returns `true` if so.
  #joinKept() {
    if (this.#isJoined) return false;
    this.#leave(this.#place);
    if (!this.rows.hasBack || this.bytes.length - this.#keptFrom !== this.#place) return false;
    this.#isJoined = true;
    this.#place = this.endOf(this.count - 1);
    return true;
  }

  // Moves all rows before the gap, so that others can be appended.
  #part() {
    if (this.#isJoined) this.rows.open(this.count, this.count);
    this.#isJoined = false;
  }

  // Returns the end of the next part: shortly after the start of the tokens that were lexed elsewhere, if there are any.
  #partEnd() {
    const [next] = this.#ahead;
    const near = next?.rows ? Math.max(next.from, this.#place) + FIRST_PART : Infinity;
    return this.lines.back(Math.min(this.bytes.length, this.#place + this.#step, near));
  }

  // Lexes a part of the text. Keeps all of its tokens except the last, which may depend on the bytes after the part. So may a lexical error, which is
  // accepted only if the part extends to the text's end.
  #readPart() {
    if (this.#join()) return;
    const { length } = this.bytes;
    const { front, gap } = this.rows;
    const from = this.#place;
    const to = this.#partEnd();
    let found = this.#lexer.tell(from, to, front, gap, this.#flags);
    let isPart = to < length;
    if (isPart && found.ending === 'whole') found.count -= 1;
    // The first token is at least as long as the part, or there is a lexical error: lexes one token, up to the text's end.
    if (isPart && found.count === 0) {
      found = this.#lexer.tell(from, length, front, 1, this.#flags);
      isPart = false;
    }
    this.#step = Math.min(PART, 2 * this.#step);
    // Usually the text ends after joined tokens, or its lexical error is there. Otherwise the rows are moved, and the part is lexed again.
    if (this.#isJoined && found.count > 0) {
      this.#part();
      return;
    }
    if (this.#take(found.count, from) || isPart) return;
    if (found.ending === 'whole') this.#end(found);
    if (found.ending === 'faulty') this.#endAt(from + found.offset);
  }

  // Returns how many of the `count` new tokens come before the first one after which known tokens may begin.
  #aloneOf(count) {
    const [next] = this.#ahead;
    if (this.rows.hasBack) return 0;
    if (!next?.rows) return count;
    const { front, numbers } = this.rows;
    return firstFrom(count, (i) => numbers[2 * (front + i)], next.from);
  }

  // Accepts `count` new tokens, or those up to the first one after which known tokens begin. Returns `true` if there are such tokens.
  #take(count, from) {
    const { rows } = this;
    rows.shift(count, from);
    const first = rows.front, alone = this.#aloneOf(count);
    for (let taken = 0; taken < count;) {
      taken = Math.max(taken + 1, alone);
      rows.front = first + taken;
      this.#place = rows.frontEnd;
      if (this.#join()) return true;
    }
    return false;
  }

  // Ends the text with a lexical error at an offset. So that the message has the right line number, the module lexes as many line feeds as precede
  // the token in which the error's line begins, and then the text from that token on.
  #endAt(offset) {
    const line = this.lines.start(this.lines.at(offset));
    const token = firstFrom(this.count, (i) => this.endOf(i), line + 1);
    const from = token > 0 ? this.endOf(token - 1) : 0;
    const first = from - this.lines.at(from);
    const covered = this.bytes.slice(first, from).fill(LINE_FEED);
    const { length } = this.bytes;
    this.#swap(covered, first);
    try {
      this.#end(this.#lexer.render(first, length, this.count - token + 1, this.#flags));
      this.offset += first;
    } finally {
      this.#look(length);
      this.#swap(covered, first);
    }
  }

  // Swaps bytes with those of the text at an offset.
  #swap(given, at) {
    const those = this.bytes.slice(at, at + given.length);
    this.bytes.set(given, at);
    given.set(those);
  }
}
