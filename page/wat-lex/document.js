// A source text that is edited, and its tokens. Offsets are in UTF-16 code units, like those of JavaScript's strings.
import { Halves } from './halves.js';
import { KINDS, Lexer, decoder } from './lexer.js';
import { Reader } from './reader.js';
import { Tokens } from './tokens.js';
import { Units } from './units.js';
import { Whole } from './whole.js';

const encoder = new TextEncoder();

// Throws a `TypeError` unless an argument is a number, and a `RangeError` unless it is an integer.
function checkInteger(given) {
  if (typeof given !== 'number') throw new TypeError(`a number was expected, not ${typeof given}`);
  if (!Number.isInteger(given)) throw new RangeError(`${given} is not an integer`);
}

function checkString(given) {
  if (typeof given !== 'string') throw new TypeError(`a string was expected, not ${typeof given}`);
}

// The error of the compiler in a text that is not a module, or not a valid one. Its offset is in UTF-16 code units; its line and column count from 0.
export class CompileError extends Error {
  name = 'CompileError';

  constructor({ message, offset, line, column, printed }) {
    super(message);
    Object.assign(this, { offset, line, column, printed });
  }
}

export class Document {
  #reader;
  #units;
  #halves;
  #flags;
  #whole;

  constructor(module, text = '', flags = {}) {
    this.#reader = new Reader(new Lexer(new WebAssembly.Instance(module)));
    this.#whole = new Whole(module);
    this.replace(text, flags);
  }

  // Replaces the text and the flags, and lexes all of it.
  replace(text, flags = {}) {
    checkString(text);
    const settings = { allow: flags.allowConfusingUnicode, strict: flags.strictUnderscores };
    this.#reader.open(encoder.encode(text), settings);
    this.#flags = settings;
    this.#halves = new Halves(text);
    this.#read();
    this.#units = new Units(this.#reader.bytes);
    this.#reader.measures.push(this.#units);
  }

  // Replaces the text from `start` to `end` by `piece`, and lexes again only what the change affects. Checks its arguments before it writes.
  change(start, end, piece) {
    checkInteger(start);
    checkInteger(end);
    checkString(piece);
    if (end < start) throw new RangeError(`the range from ${start} to ${end} ends before it begins`);
    const wide = this.#halves.widened(start, end, piece);
    this.#reader.change(this.#units.byteAt(wide.start), this.#units.byteAt(wide.end), encoder.encode(wide.piece));
    this.#halves.change(wide.start, wide.end, wide.piece);
    this.#read();
  }

  #read() {
    this.#reader.readOn();
    if (this.#reader.ending === 'too long') throw new RangeError('the text is too long');
  }

  get text() { return decoder.decode(this.#reader.bytes); }

  // The number of tokens: all of the text, or those before its lexical error.
  get count() { return this.#reader.count; }

  kind(i) { return KINDS[this.#reader.rows.code(this.#checked(i))]; }
  start(i) { return this.#checked(i) > 0 ? this.end(i - 1) : 0; }
  end(i) { return this.#units.at(this.#reader.endOf(this.#checked(i))); }
  token(i) { return { kind: this.kind(i), start: this.start(i), end: this.end(i) }; }

  #checked(i) {
    checkInteger(i);
    if (!(i >= 0 && i < this.count)) throw new RangeError(`there is no token ${i}`);
    return i;
  }

  // Returns the index of the token that contains an offset, or `count` after the last.
  at(place) {
    checkInteger(place);
    return new Tokens(this.#reader).at(this.#units.byteAt(place));
  }

  * [Symbol.iterator]() {
    for (let i = 0, start = 0; i < this.count; i += 1) {
      const end = this.end(i);
      yield { kind: this.kind(i), start, end };
      start = end;
    }
  }

  get tokens() { return [...this]; }

  // The lexical error that ends the tokens, or null. Its line and column count from 0.
  get fault() {
    const { ending, offset, message } = this.#reader;
    if (ending !== 'faulty') return null;
    // Only the first line of a message with a column above 500 has the location.
    const [what] = message.split('\n')[0].split(' at <anon>:');
    const { offset: start, line, column } = this.#locate(offset);
    return { start, line, column, message: what, printed: message };
  }

  // Returns a byte's offset, line and column in UTF-16 code units.
  #locate(byte) {
    const { lines } = this.#reader, line = lines.at(byte), offset = this.#units.at(byte);
    return { offset, line, column: offset - this.#units.at(lines.start(line)) };
  }

  // Returns the formatted text, or null if the text has a lexical error or memory runs out.
  format() {
    const laidOut = this.#reader.ending === 'whole' ? this.#whole.layOut(this.#reader.bytes, this.#flags) : null;
    return laidOut && decoder.decode(laidOut);
  }

  // Returns the binary module. Throws a `CompileError` if the text is not a module by the standard's rules, or with `validate` if the module is not valid,
  // and a `RangeError` if memory runs out.
  compile({ validate = false } = {}) {
    const compiled = this.#whole.compile(this.#reader.bytes, { validate });
    if (!compiled) throw new RangeError('there is no memory to compile the text');
    const { bytes, error } = compiled;
    if (error) throw new CompileError({ ...error, ...this.#locate(error.offset) });
    return bytes;
  }

  // Returns the binary module, or null if the text is not a module of function types alone or memory runs out.
  types() { return this.#reader.ending === 'whole' ? this.#whole.types(this.#reader.bytes) : null; }
}
