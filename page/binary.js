// A binary module as the page prints it: its bytes, and its imports and exports with their types.
import { decoder } from './wat-lex/lexer.js';

const hex = (number, digits) => number.toString(16).padStart(digits, '0');

// Formats the bytes as at most `most` lines of sixteen bytes, each after the offset of its first byte.
export function dumped(bytes, most) {
  const lines = [];
  for (let at = 0; at < bytes.length && lines.length < most; at += 16) {
    lines.push(`${hex(at, 8)}  ${Array.from(bytes.subarray(at, at + 16), (byte) => hex(byte, 2)).join(' ')}`);
  }
  return lines.join('\n');
}

const VALUE_TYPES = { 0x7f: 'i32', 0x7e: 'i64', 0x7d: 'f32', 0x7c: 'f64', 0x7b: 'v128', 0x70: 'funcref', 0x6f: 'externref' };
// The identifiers of sections.
const SECTIONS = { type: 1, import: 2, func: 3, table: 4, memory: 5, global: 6, export: 7 };
// The index spaces, by the codes of external kinds.
const SPACES = ['func', 'table', 'memory', 'global'];
// The opcodes of constant expressions with an immediate of a fixed size, in bytes; those with an index or an integer; `end`; and the prefix of vectors.
// Others have no immediate, except `ref.null`, whose type is skipped like an opcode.
const FIXED = { 0x43: 4, 0x44: 8 };
const INDEXED = [0x23, 0x41, 0x42, 0xd2];
const END = 0x0b;
const VECTOR = 0xfd;
const VECTOR_BYTES = 17;

const HEADER = 8;

// A reader of the sections of a valid module.
class BinaryReader {
  #bytes;
  #at = HEADER;

  constructor(bytes) { this.#bytes = bytes; }

  get isAtEnd() { return this.#at === this.#bytes.length; }
  get at() { return this.#at; }
  goTo(at) { this.#at = at; }

  byte() {
    this.#at += 1;
    return this.#bytes[this.#at - 1];
  }

  // Reads an unsigned integer in LEB128.
  number() {
    let value = 0, factor = 1, byte;
    do {
      byte = this.byte();
      value += (byte & 0x7f) * factor;
      factor *= 0x80;
    } while (byte >= 0x80);
    return value;
  }

  list(read) { return Array.from({ length: this.number() }, read); }

  name() {
    const length = this.number();
    this.#at += length;
    return decoder.decode(this.#bytes.subarray(this.#at - length, this.#at));
  }

  valueType() { return VALUE_TYPES[this.byte()]; }

  functionType() {
    this.byte();
    return { params: this.list(() => this.valueType()), results: this.list(() => this.valueType()) };
  }

  limits() {
    const hasMost = this.byte() === 1, least = this.number();
    return hasMost ? `${least} ${this.number()}` : `${least}`;
  }

  tableType() {
    const type = this.valueType();
    return `${this.limits()} ${type}`;
  }

  globalType() {
    const type = this.valueType();
    return this.byte() === 1 ? `(mut ${type})` : type;
  }

  // Skips a constant expression.
  skipExpression() {
    for (let code = this.byte(); code !== END; code = this.byte()) {
      if (INDEXED.includes(code)) this.number();
      else this.#at += code === VECTOR ? VECTOR_BYTES : FIXED[code] ?? 0;
    }
  }
}

const group = (word, types) => (types.length > 0 ? ` (${word} ${types.join(' ')})` : '');
// Writes an import or an export like the text format.
const fieldOf = (word, names, kind, type) => {
  const inner = kind === 'func' ? `${group('param', type.params)}${group('result', type.results)}` : ` ${type}`;
  return `(${word} ${names.map((name) => JSON.stringify(name)).join(' ')} (${kind}${inner}))`;
};

// The types of a valid module, section by section.
class Interface {
  #types = [];
  #spaces = { func: [], table: [], memory: [], global: [] };
  imports = [];
  exports = [];

  // Reads the type of an import or of a definition.
  #external(reader, kind) {
    if (kind === 'func') return this.#types[reader.number()];
    if (kind === 'table') return reader.tableType();
    return kind === 'memory' ? reader.limits() : reader.globalType();
  }

  #import(reader) {
    const names = [reader.name(), reader.name()], kind = SPACES[reader.byte()], type = this.#external(reader, kind);
    this.#spaces[kind].push(type);
    this.imports.push(fieldOf('import', names, kind, type));
  }

  #define(reader, kind) {
    this.#spaces[kind].push(this.#external(reader, kind));
    if (kind === 'global') reader.skipExpression();
  }

  #export(reader) {
    const name = reader.name(), kind = SPACES[reader.byte()], type = this.#spaces[kind][reader.number()];
    this.exports.push({ name, kind, type, field: fieldOf('export', [name], kind, type) });
  }

  read(reader, section) {
    if (section === SECTIONS.type) this.#types = reader.list(() => reader.functionType());
    if (section === SECTIONS.import) reader.list(() => this.#import(reader));
    for (const kind of SPACES) if (section === SECTIONS[kind]) reader.list(() => this.#define(reader, kind));
    if (section === SECTIONS.export) reader.list(() => this.#export(reader));
  }
}

// Returns the imports and the exports of a valid module. An import is a field of the text format; an export has a name, its kind, its type and a field.
// The type of a function has its parameters and its results.
export function interfaceOf(bytes) {
  const reader = new BinaryReader(bytes), found = new Interface();
  while (!reader.isAtEnd) {
    const section = reader.byte(), length = reader.number(), end = reader.at + length;
    found.read(reader, section);
    reader.goTo(end);
  }
  return { imports: found.imports, exports: found.exports };
}
