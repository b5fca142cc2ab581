// Random edits of texts: after each edit, the tokens of the reader must equal those of one call of the module on the whole text.
import assert from 'node:assert/strict';
import { changeOf, Places } from './edits.js';
import { rowsOfPart } from './wat-lex/lexer.js';

const PIECES = ['"', '""', '\\', '\\"', '\\q', '\\u{e9}', '(;', ';)', ';;', ';', '(', ')', '(@', '@', '@"', '$', '$"', ',', '[', '0x', '1_000', '1__0', '_', 'nan:0x', '+', 'a', 'i32', ' ', '  ', '\n', '\n\n', '\t', '\r\n', '\r', '\u00e9', '\u202e', '\u6f22', '\u{1f600}', '\u{1fa00}', '\u{1f600}\u{1fa00}', '\0', '\x7f'];
const LONG = ['x'.repeat(3000), ' '.repeat(2000), '(; (; \u{1f600} ;) ', `"${'\u6f22'.repeat(400)}"`, '(a $b "c" ;; d\n'.repeat(100), ';; e\n'.repeat(40)];

export class Chance {
  constructor(seed) { this.seed = seed; }

  below(count) {
    this.seed = (this.seed * 48271) % 2147483647;
    return this.seed % count;
  }

  oneOf(parts) { return parts[this.below(parts.length)]; }
}

// Returns the result of one call of the module on a whole text.
export function readOnce(lexer, bytes, flags) {
  lexer.reserve(bytes.length);
  lexer.bytes(bytes.length).set(bytes);
  const found = lexer.render(0, bytes.length, bytes.length, flags);
  return { ...found, bytes: lexer.bytes(bytes.length) };
}

// Returns `true` if the rows of a reader are the first rows of the module's.
function areFirst({ rows, count }, numbers) {
  for (let i = 0; i < count; i += 1) if (rows.end(i) !== numbers[2 * i] || rows.code(i) !== numbers[2 * i + 1]) return false;
  return true;
}

const isSame = (one, other) => Buffer.from(one.slice().buffer).equals(Buffer.from(other.slice().buffer));

// Checks that the lines of a reader are those of its text.
function compareLines({ lines, bytes }) {
  const starts = [0];
  for (let at = bytes.indexOf(10); at >= 0; at = bytes.indexOf(10, at + 1)) starts.push(at + 1);
  assert.equal(lines.count, starts.length, 'lines');
  for (let line = 0; line < starts.length; line += Math.ceil(starts.length / 2000)) {
    const start = starts[line];
    assert.deepEqual([lines.start(line), lines.at(start), lines.at(Math.max(0, start - 1))], [start, line, Math.max(0, line - 1)], 'a line');
  }
}

// Checks that a reader has the module's result, or a prefix of it if it has not lexed the whole text.
export function compare(reader, lexer, flags) {
  const whole = readOnce(lexer, reader.bytes, flags);
  const isRead = reader.ending !== null;
  for (const it of isRead ? ['ending', 'count', 'offset', 'line', 'column', 'message'] : []) assert.equal(reader[it], whole[it], it);
  assert.ok(reader.count <= whole.count && areFirst(reader, whole.rows), 'rows');
  compareLines(reader);
}

// Lexes a text of which stretches, from any offsets, are lexed elsewhere and delivered in any order; some are never delivered. Returns the number of
// delivered ones.
export function readAhead(reader, lexer, bytes, flags, chance, least = 0) {
  const awaited = [];
  const size = () => 1 + least + chance.below(chance.oneOf([4000, 300, 20]));
  let next = 0, count = 0;
  const expect = () => {
    const from = Math.max(next, reader.lines.back(reader.place + chance.below(Math.min(2000, bytes.length + 1))));
    const to = reader.lines.back(from + size());
    next = Math.max(next, reader.lines.back(to + chance.oneOf([0, 0, chance.below(600)])));
    if (from >= to) return;
    reader.expect(from, to);
    awaited.push({ from, to });
  };
  const tell = () => {
    const [{ from, to }] = awaited.splice(chance.below(awaited.length), 1);
    const isRead = chance.below(10) > 0;
    reader.give(from, isRead ? rowsOfPart(lexer, reader.bytes.slice(from, to), from, flags) : null);
    count += isRead ? 1 : 0;
  };
  reader.open(bytes, flags);
  do {
    for (let i = chance.below(5); i > 0; i -= 1) expect();
    while (awaited.length > 0 && chance.below(5) > 0) tell();
  } while (!reader.readOn(chance.below(8) === 0 ? Infinity : 0));
  compare(reader, lexer, flags);
  return count;
}

// Random edits, most of which begin near the end of the previous one.
export class Edits {
  constructor(chance) {
    this.chance = chance;
    this.at = 0;
  }

  piece(text) {
    const { chance } = this;
    if (chance.below(4) === 0) return '';
    if (chance.below(30) === 0) return chance.oneOf(LONG);
    return chance.below(40) > 0 ? chance.oneOf(PIECES) : text.slice(chance.below(text.length + 1)).slice(0, chance.below(3000));
  }

  taken() {
    const { chance } = this;
    return chance.oneOf([0, 0, 0, 1, 1, 2, chance.below(20), chance.below(6) === 0 ? chance.below(4000) : 0]);
  }

  next(text) {
    const { chance } = this;
    if (chance.below(4) === 0 || this.at > text.length) this.at = chance.below(text.length + 1);
    const from = Math.max(0, this.at - chance.oneOf([0, 0, 1, 4]));
    const piece = this.piece(text);
    this.at = from + piece.length;
    return text.slice(0, from) + piece + text.slice(from + this.taken());
  }
}

// Edits a text `times` times. Half of the texts simulate a text area, which contains LF even if the bytes contain CR LF, and convert its positions to
// byte offsets as the page does.
export function editOften(reader, lexer, given, times, chance) {
  const encoder = new TextEncoder();
  const flags = { allow: chance.below(4) === 0, strict: chance.below(4) === 0 };
  const isTyped = chance.below(2) === 0;
  const lineEnd = isTyped && chance.below(2) === 0 ? '\r\n' : '\n';
  const held = (text) => (isTyped ? text.replace(/\r\n?/g, '\n') : text).toWellFormed();
  const bytesOf = (text) => encoder.encode(text.replaceAll('\n', lineEnd));
  const edits = new Edits(chance), places = new Places();
  let text = held(given);
  const byteAt = (units) => (isTyped ? places.byteAt(reader.bytes, units) : encoder.encode(text.slice(0, units)).length);
  reader.open(bytesOf(text), flags);
  for (let i = 0; i < times; i += 1) {
    // Sometimes the next edit comes before the whole text is lexed.
    reader.readOn(chance.below(5) === 0 ? 0 : Infinity);
    compare(reader, lexer, flags);
    const next = held(edits.next(text));
    const change = changeOf(text, next);
    assert.equal(text.slice(0, change.from) + change.text + text.slice(change.to), next);
    const to = byteAt(change.to), from = byteAt(change.from);
    reader.change(from, to, bytesOf(change.text));
    text = next;
    assert.ok(isSame(reader.bytes, bytesOf(text)), 'the text');
  }
  reader.readOn();
  compare(reader, lexer, flags);
}
