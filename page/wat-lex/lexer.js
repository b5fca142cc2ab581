// The proved lexer over its memory. After the module's own data, the memory holds the report, the text, the rows, and the message, followed by the
// rows that `render` writes. The module itself allocates nothing.
//
// The names of the kinds, by the module's codes: 0 means none, 12 to 15 are kinds of floats.
export const KINDS = [null, 'LineComment', 'BlockComment', 'Whitespace', 'LParen', 'RParen', 'String', 'Id', 'Keyword', 'Annotation', 'Reserved', 'Integer', 'Float', 'Float', 'Float', 'Float'];
const ENDINGS = ['whole', 'faulty', 'full', 'not UTF-8', 'too long'];

const PAGE = 65536;
// In bytes: the capacity for the report, enough for the module of either compiler.
const REPORT = 48;
const ROW = 8;
// In bytes: the smallest capacity for a text, so that a text that is typed seldom needs more.
const LEAST = 1 << 21;
const MESSAGE = 4096;
export const decoder = new TextDecoder('utf-8', { ignoreBOM: true });

const aligned = (at) => Math.ceil(at / 16) * 16;

function grow(memory, end) {
  const more = Math.ceil((end - memory.buffer.byteLength) / PAGE);
  if (more > 0) memory.grow(more);
}

export class Lexer {
  #exports;
  #word;
  #report;
  #text;

  constructor(instance) {
    this.#exports = instance.exports;
    const begin = this.#exports.__heap_base.value;
    // In bytes: the size of the module's `usize`. It is 4 in rustc's module, and 8 in that of Rattle's compiler, even over a 32-bit memory.
    this.#word = typeof begin === 'bigint' ? 8 : 4;
    this.#report = aligned(Number(begin));
    this.#text = this.#report + REPORT;
    this.capacity = 0;
    this.reserve(LEAST);
  }

  get #rows() { return this.#text + this.capacity; }

  // A token has at least one byte, so the rows never outnumber the bytes.
  get #message() { return this.#rows + ROW * this.capacity; }

  // Reserves capacity for a text of `length` bytes and its rows. Returns `true` if the rows have moved.
  reserve(length) {
    if (length <= this.capacity) return false;
    const capacity = aligned(length + length / 4);
    grow(this.#exports.memory, this.#text + (1 + ROW) * capacity + MESSAGE);
    this.capacity = capacity;
    return true;
  }

  // These views are valid until the memory grows, as in `reserve` and `render`.
  bytes(length) { return new Uint8Array(this.#exports.memory.buffer, this.#text, length); }
  rows() { return new Uint32Array(this.#exports.memory.buffer, this.#rows, 2 * this.capacity); }

  // Lexes the text's bytes from `from` to `to`. Writes the rows of at most `most` tokens, from the row `first` on. A row is two numbers: the token's
  // end, counted from `from`, and the code of its kind.
  tell(from, to, first, most, flags) { return this.#call(from, to, this.#rows + ROW * first, most, 0, flags); }

  // Lexes like `tell`, and also returns the whole message of the lexical error. Writes the rows, at most `most`, after the message.
  render(from, to, most, flags) {
    const { memory } = this.#exports;
    for (let room = MESSAGE; ; room *= 4) {
      const rows = aligned(this.#message + room);
      grow(memory, rows + ROW * most);
      const found = this.#call(from, to, rows, most, room, flags);
      // The message is whole if it does not fill its buffer.
      if (found.written < room) {
        const message = decoder.decode(new Uint8Array(memory.buffer, this.#message, found.written));
        return { ...found, message, rows: new Uint32Array(memory.buffer, rows, 2 * found.count) };
      }
    }
  }

  #call(from, to, rows, most, room, { allow = false, strict = false }) {
    const { memory, wat_page_read } = this.#exports;
    const word = this.#word, size = word === 8 ? BigInt : Number;
    wat_page_read(size(this.#text + from), size(to - from), allow ? 1 : 0, strict ? 1 : 0, size(rows), size(most), size(this.#message), size(room), size(this.#report));
    const found = new DataView(memory.buffer, this.#report, REPORT);
    const number = (place) => (word === 8 ? Number(found.getBigUint64(8 * place, true)) : found.getUint32(4 * place, true));
    return { ending: ENDINGS[found.getUint32(0, true)], count: number(1), offset: number(2), line: number(3), column: number(4), written: number(5) };
  }
}

// Returns the rows of a part of a text that begins at offset `from`, with ends counted from the text's start: all tokens before a lexical error, or,
// without an error, all except the last, which may depend on the bytes after the part.
export function rowsOfPart(lexer, part, from, flags) {
  lexer.reserve(part.length);
  lexer.bytes(part.length).set(part);
  const { ending, count } = lexer.tell(0, part.length, 0, part.length, flags);
  const rows = lexer.rows().slice(0, 2 * (ending === 'whole' ? Math.max(0, count - 1) : count));
  for (let i = 0; i < rows.length; i += 2) rows[i] += from;
  return rows;
}
