// Tests the parts of the page and of the npm package one by one, in node, with substitutes for the browser's canvas, elements and workers. Takes a
// second; packaged.mjs, agree.mjs and browser.mjs test all parts together, on many texts.
// usage: node parts.mjs PROGRAM, once build.sh has made the module
import assert from 'node:assert/strict';
import { spawnSync } from 'node:child_process';
import { readFileSync } from 'node:fs';
import { dumped, interfaceOf } from './binary.js';
import { whatCounts } from './counts.js';
import { cutLines, plural, summaryOf, visible } from './dom.js';
import { Chance, compare, editOften, readAhead, readOnce } from './edited.mjs';
import { changeOf, placeInLayout, Places } from './edits.js';
import { nameOf } from './names.js';
import { argumentOf, isCallable, printedValue } from './values.js';
import { CompileError, Document, WatLex, load } from './wat-lex/index.js';
import { KINDS, Lexer, rowsOfPart } from './wat-lex/lexer.js';
import { Lines } from './wat-lex/lines.js';
import { Reader } from './wat-lex/reader.js';
import { Rows, firstFrom } from './wat-lex/rows.js';
import { Tokens } from './wat-lex/tokens.js';
import { Units } from './wat-lex/units.js';
import { Whole } from './wat-lex/whole.js';

const program = process.argv[2];
if (!program) throw new Error('usage: node parts.mjs PROGRAM');
const module = new WebAssembly.Module(readFileSync(new URL('out/wat-lex/wat_lex.wasm', import.meta.url)));
const lexer = new Lexer(new WebAssembly.Instance(module));
const encoder = new TextEncoder();
const lengthOf = (text) => encoder.encode(text).length;
const MIXED = 'a\u{1f600}\u0436\u6f22\n\u00e9(b)\n\n"\u{1fa00}" \u{10348}\u0800';

// Returns the tokens of a text, and its bytes.
function tokensOf(text) {
  const found = readOnce(lexer, encoder.encode(text), {});
  return { tokens: new Tokens({ ...found, rows: found.rows.slice() }), bytes: found.bytes.slice() };
}

// ---- texts and their changes

// Returns the change from a text to another, by characters.
function changeByCharacters(before, after) {
  const one = [...before], other = [...after];
  let from = 0, same = 0;
  while (from < one.length && one[from] === other[from]) from += 1;
  while (same < Math.min(one.length, other.length) - from && one.at(-1 - same) === other.at(-1 - same)) same += 1;
  const units = (parts) => parts.join('').length;
  return { from: units(one.slice(0, from)), to: units(one.slice(0, one.length - same)), text: other.slice(from, other.length - same).join('') };
}

// All texts of at most three characters, which may share the first or the second half of their surrogate pairs.
const LETTERS = ['a', 'b', '\u{1f600}', '\u{1f601}', '\u{1fa00}'];
const texts = [''];
for (let i = 0; i < 1 + 5 + 25; i += 1) texts.push(...LETTERS.map((letter) => texts[i] + letter));

// Characters whose surrogate pairs share the first or the last possible half.
const HALVED = [['\u{10000}', '\u{10001}'], ['\u{10fc00}', '\u{10fc01}'], ['\u{10000}', '\u{10400}'], ['\u{103ff}', '\u{107ff}'], ['\ud7ff', '\ue000']];

function changes() {
  for (const [before, after] of HALVED) assert.deepEqual(changeOf(`a${before}b`, `a${after}b`), { from: 1, to: 1 + before.length, text: after });
  // A half that ends or begins what two texts share is not part of another pair.
  for (const [same, length] of [['\u{10000}', 2], ['\u{10fc00}', 2], ['\ue000', 1], ['\ud7ff', 1]]) {
    assert.deepEqual([changeOf(`${same}a`, `${same}b`), changeOf(`a${same}`, `b${same}`)], [{ from: length, to: length + 1, text: 'b' }, { from: 0, to: 1, text: 'b' }]);
  }
  for (const before of texts) for (const after of texts) assert.deepEqual(changeOf(before, after), changeByCharacters(before, after), `${before} ${after}`);
}

// The offset of each position of a text area with LF, for a text with LF or CR LF, also from each position that was converted before.
function places() {
  for (const lineEnd of ['\n', '\r\n']) {
    const bytes = encoder.encode(MIXED.replaceAll('\n', lineEnd));
    const all = Array.from({ length: MIXED.length + 1 }, (_, at) => at).filter((at) => MIXED.slice(0, at).isWellFormed());
    const wanted = (units) => lengthOf(MIXED.slice(0, units).replaceAll('\n', lineEnd));
    for (const first of all) {
      for (const second of all) {
        const one = new Places();
        assert.deepEqual([one.byteAt(bytes, first), one.byteAt(bytes, second)], [wanted(first), wanted(second)], `${first} ${second}`);
      }
    }
    assert.equal(new Places().byteAt(bytes, MIXED.length + 5), bytes.length);
  }
}

function layoutPlaces() {
  const { tokens } = tokensOf('(  a\t"b"\n\n)');
  const laidOut = encoder.encode('(a\n\n  "b")\n');
  const found = Array.from({ length: 12 }, (_, place) => placeInLayout(tokens, laidOut, place));
  assert.deepEqual(found, [0, 1, 1, 1, 6, 6, 7, 8, 9, 9, 9, 11]);
  const spaced = Array.from({ length: 7 }, (_, place) => placeInLayout(tokensOf('(a  b)').tokens, encoder.encode('(a b)\n'), place));
  assert.deepEqual(spaced, [0, 1, 3, 3, 3, 4, 6]);
}

function editing() {
  const chance = new Chance(5);
  const reader = new Reader(new Lexer(new WebAssembly.Instance(module)));
  const text = '(module (func $f (param i32) ;; \u{1f600} a\n  local.get 0 (; b\n c ;) "d\\n\u6f22")) (@e 1.5)\n'.repeat(20);
  for (let i = 0; i < 4; i += 1) editOften(reader, lexer, text.slice(0, text.length - i), 40, chance);
  let stretches = 0;
  for (let i = 0; i < 12; i += 1) stretches += readAhead(reader, lexer, encoder.encode(text.repeat(1 + (i % 3))), { strict: i % 2 === 1 }, chance);
  assert.ok(stretches > 12);
  assert.deepEqual(readOnce(lexer, Uint8Array.of(97, 255), {}).ending, 'not UTF-8');
  reader.open(Uint8Array.of(97, 32, 255), {});
  assert.deepEqual([reader.ending, reader.offset, reader.count, reader.readOn()], ['not UTF-8', 2, 0, true]);
}

class Counted extends Lexer {
  bytesRead = 0;
  tell(from, to, ...rest) {
    this.bytesRead += to - from;
    return super.tell(from, to, ...rest);
  }
}

// After a change, few bytes are lexed again: the tokens before it, and those after it that begin where they began, are kept.
function kept() {
  const it = new Counted(new WebAssembly.Instance(module)), reader = new Reader(it);
  const text = '(a $b "c" 1.5) ;; d\n'.repeat(10_000);
  reader.open(encoder.encode(text), {});
  reader.readOn();
  // The module first reads the whole text once, to check that it is UTF-8.
  assert.ok(it.bytesRead < 2.5 * text.length);
  for (const [from, to, piece] of [[100_000, 100_001, 'x'], [100_000, 100_001, '"'], [100_000, 100_001, 'y'], [4, 4, ' '], [150_000, 150_000, '(; ;)'], [199_990, 199_990, ' z'], [0, 0, ' ']]) {
    const [before, { length }] = [it.bytesRead, reader.bytes];
    reader.change(from, to, encoder.encode(piece));
    reader.readOn();
    assert.ok(it.bytesRead - before < (piece === '"' ? length : 5000), piece);
    compare(reader, lexer, {});
  }
  // A change comes before the whole text is lexed.
  reader.open(encoder.encode(text), {});
  assert.equal(reader.readOn(0), false);
  reader.change(4, 4, encoder.encode(' '));
  reader.readOn();
  compare(reader, lexer, {});
  // Two changes follow each other, and the second comes before the tokens after the first are joined.
  reader.change(150_001, 150_001, encoder.encode('"'));
  reader.readOn(0);
  reader.change(4, 4, encoder.encode(' '));
  reader.readOn();
  compare(reader, lexer, {});
  // Nothing is known of the end of a text before it is lexed.
  reader.open(encoder.encode(text), {});
  assert.deepEqual([reader.ending, reader.offset, reader.line, reader.column, reader.message], [null, 0, 0, 0, '']);
  // One token follows those that were known before a change.
  reader.open(encoder.encode(`${'a '.repeat(35_000)}${'x'.repeat(200_000)} b`), {});
  for (let i = 0; i < 2; i += 1) reader.readOn(0);
  assert.equal(reader.place, 70_000);
  reader.change(4, 4, encoder.encode(' '));
  reader.readOn();
  compare(reader, lexer, {});
}

// Stretches of a text that are lexed elsewhere.
function stretches() {
  const it = new Counted(new WebAssembly.Instance(module)), reader = new Reader(it);
  const text = '(a $b "c" 1.5) ;; d\n'.repeat(10_000);
  const rowsFrom = (from) => rowsOfPart(lexer, encoder.encode(text.slice(from)), from, {});
  const openWith = (...expected) => {
    reader.open(encoder.encode(text), {});
    for (const [from, to] of expected) reader.expect(from, to);
  };
  // A stretch before the current offset, or one that is withdrawn, is not awaited; one after it is.
  openWith();
  reader.readOn(0);
  reader.expect(5, reader.place);
  assert.equal(reader.readOn(), true);
  openWith([0, 1000]);
  reader.give(0, null);
  assert.equal(reader.readOn(), true);
  openWith([0, 1000], [1000, 70_000]);
  reader.give(0, null);
  assert.equal(reader.readOn(), false);
  // Rows of a stretch that was not announced change nothing.
  for (const rows of [null, rowsFrom(60_000)]) {
    openWith([0, 1000]);
    reader.give(60_000, rows);
    assert.equal(reader.readOn(), false);
  }
  // A change drops the rows of all stretches.
  openWith([60_000, text.length]);
  reader.give(60_000, rowsFrom(60_000));
  reader.change(100_001, 100_002, encoder.encode(' '));
  reader.readOn();
  compare(reader, lexer, {});
  // So do other flags, with which the text has an error.
  const other = encoder.encode(`${text}"\\u{1__0}" ${text}`);
  reader.open(other, {});
  reader.expect(60_000, other.length);
  reader.give(60_000, rowsOfPart(lexer, other.slice(60_000), 60_000, {}));
  reader.restart({ strict: true });
  reader.readOn();
  assert.equal(reader.ending, 'faulty');
  compare(reader, lexer, { strict: true });
  // The tokens of a stretch follow those that were known before a change.
  openWith();
  reader.readOn(0);
  reader.change(4, 4, encoder.encode(' '));
  reader.expect(60_001, text.length + 1);
  reader.give(60_001, rowsOfPart(lexer, reader.bytes.slice(60_001), 60_001, {}));
  reader.readOn();
  compare(reader, lexer, {});
  assert.equal(reader.measures.length, 1);
  // A stretch that is lexed elsewhere is awaited.
  openWith([0, 1000]);
  assert.deepEqual([reader.readOn(), reader.place < text.length], [false, true]);
  assert.equal(reader.readOn(), true);
  // The tokens of a stretch are joined, also if it begins within a token.
  for (const from of [60_000, 60_011]) {
    const before = it.bytesRead;
    openWith([from, text.length]);
    reader.give(from, rowsFrom(from));
    reader.readOn();
    assert.ok(it.bytesRead - before < text.length + 80_000, `${from}`);
    compare(reader, lexer, {});
  }
}

// An error whose message is longer than the memory that is first reserved for it.
function longMessages() {
  const text = `\n(; ${'a\u0301\u0302\u0303\u0304'.repeat(450)} ;) "\\q"`;
  const { stderr } = spawnSync(program, { input: text });
  const { ending, message, offset, line, column } = readOnce(lexer, encoder.encode(text), {});
  assert.deepEqual([ending, `${message}\n`, offset, line], ['faulty', stderr.toString(), lengthOf(text) - 2, 1]);
  assert.ok(lengthOf(message) > 4096 && column > 0);
}

function partsOfTexts() {
  const part = encoder.encode('(a "b');
  assert.deepEqual([...rowsOfPart(lexer, part, 7, {})], [8, 4, 9, 8, 10, 3]);
  assert.deepEqual([...rowsOfPart(lexer, encoder.encode('(a b'), 7, {})], [8, 4, 9, 8, 10, 3]);
  assert.deepEqual([...rowsOfPart(lexer, new Uint8Array(), 7, {})], []);
  assert.deepEqual([...rowsOfPart(lexer, encoder.encode(';;\u202e\n'), 1, { allow: true })], [6, 1]);
  // A part that is longer than the capacity, whose end the rows must not overwrite.
  const long = `${' '.repeat(CAPACITY - 10)}${'a '.repeat(20)}`;
  const ends = [...rowsOfPart(new Lexer(new WebAssembly.Instance(module)), encoder.encode(long), 0, {})].filter((_, i) => i % 2 === 0);
  assert.deepEqual(ends, Array.from({ length: 40 }, (_, i) => CAPACITY - 10 + i));
  // A text that outgrows the capacity.
  const reader = new Reader(new Lexer(new WebAssembly.Instance(module)));
  reader.open(new Uint8Array(CAPACITY).fill(10), {});
  reader.change(5, 5, encoder.encode('ab'));
  reader.readOn();
  assert.deepEqual([reader.ending, reader.count, reader.endOf(2), reader.lines.count, reader.lines.start(6), reader.lines.at(CAPACITY)], ['whole', 3, CAPACITY + 2, CAPACITY + 1, 8, CAPACITY - 2]);
  // A longer text, which the rows must not overwrite.
  const longer = new Reader(new Lexer(new WebAssembly.Instance(module)));
  longer.open(encoder.encode(`${'\n'.repeat(CAPACITY)}a b c d e`), {});
  longer.readOn();
  assert.deepEqual([longer.count, longer.endOf(0), [...longer.bytes.slice(CAPACITY)]], [10, CAPACITY, [...encoder.encode('a b c d e')]]);
  // A message after which the memory grows, as the error's line has many tokens.
  const faulty = new Reader(new Lexer(new WebAssembly.Instance(module)));
  faulty.open(encoder.encode(`${'a '.repeat(20_000)}"\\q`), {});
  faulty.readOn();
  compare(faulty, lexer, {});
}

// The end of the module's own data, the report and the text after it, and the capacity for a text, in bytes.
const BEGIN = 1000, REPORT = 1008, TEXT = 1056, CAPACITY = 2_621_440;

// Returns a substitute for an instance of the module, whose `usize` has `word` bytes. Each call is recorded and reports the next of these lengths of a
// message.
function instanceOf(word, pages, lengths) {
  const calls = [], memory = new WebAssembly.Memory({ initial: pages });
  const read = (...given) => {
    assert.deepEqual(given.map((it) => typeof it), [0, 1, 2, 3, 4, 5, 6, 7, 8].map((i) => (word === 8 && i !== 2 && i !== 3 ? 'bigint' : 'number')));
    const [text, length, allow, strict, rows, most, message, room, report] = given.map(Number);
    calls.push({ text, length, allow, strict, rows, most, message, room, report });
    const view = new DataView(memory.buffer);
    view.setUint32(report, 1, true);
    [2, 3, 4, 5, lengths.shift()].forEach((it, i) => (word === 8 ? view.setBigUint64(report + 8 * (i + 1), BigInt(it), true) : view.setUint32(report + 4 * (i + 1), it, true)));
    new Uint8Array(memory.buffer, message).set(encoder.encode('h\u00e9'));
  };
  return { calls, memory, exports: { __heap_base: { value: word === 8 ? BigInt(BEGIN) : BEGIN }, memory, wat_page_read: read } };
}

const pagesOf = (bytes) => Math.ceil(bytes / 65_536);

function memory() {
  for (const [word, pages] of [[4, 1], [8, 1], [4, 360], [4, 400]]) {
    const instance = instanceOf(word, pages, [6, 4096, 3]), it = new Lexer(instance);
    const size = () => instance.memory.buffer.byteLength / 65_536;
    const message = TEXT + 9 * CAPACITY;
    assert.deepEqual([it.capacity, size(), it.bytes(5).byteOffset, it.rows().byteOffset, it.rows().length], [CAPACITY, Math.max(pages, pagesOf(message + 4096)), TEXT, TEXT + CAPACITY, 2 * CAPACITY]);
    const bytes = it.bytes(5);
    assert.deepEqual(it.tell(3, 10, 2, 7, { allow: true }), { ending: 'faulty', count: 2, offset: 3, line: 4, column: 5, written: 6 });
    const { rows, ...found } = it.render(1, 4, 5, { strict: true });
    assert.deepEqual(found, { ending: 'faulty', count: 2, offset: 3, line: 4, column: 5, written: 3, message: 'h\u00e9' });
    const rest = { text: TEXT + 1, length: 3, allow: 0, strict: 1, most: 5, message, report: REPORT };
    assert.deepEqual(instance.calls, [{ text: TEXT + 3, length: 7, allow: 1, strict: 0, rows: TEXT + CAPACITY + 16, most: 7, message, room: 0, report: REPORT }, { ...rest, rows: message + 4096, room: 4096 }, { ...rest, rows: message + 16_384, room: 16_384 }]);
    // The memory has grown only if the rows did not fit.
    assert.deepEqual([rows.byteOffset, rows.length, size(), bytes.length], [message + 16_384, 4, Math.max(pages, pagesOf(message + 16_384 + 40)), 5]);
    assert.deepEqual([it.reserve(CAPACITY), it.capacity, it.reserve(CAPACITY + 1), it.capacity, size()], [false, CAPACITY, true, 3_276_816, pagesOf(TEXT + 9 * 3_276_816 + 4096)]);
  }
  // The last page has 80 bytes.
  const even = instanceOf(4, 1, []);
  new Lexer(even).reserve(2_632_640);
  assert.equal(even.memory.buffer.byteLength / 65_536, 453);
  const instance = instanceOf(4, 1, [1]);
  new Lexer(instance).render(0, 1, 1_000_000, {});
  assert.equal(instance.memory.buffer.byteLength / 65_536, pagesOf(TEXT + 9 * CAPACITY + 4096 + 8_000_000));
}

// ---- counts over texts

// A text of several blocks of the counts, with characters of one to four bytes.
const LONG = `${MIXED}${'x'.repeat(700)}${MIXED.repeat(40)}${'\n\n\n\nabcd'.repeat(80)}`;

// Compares lines and UTF-16 code units with those of the string.
function compareCounts(text, lines, units) {
  const bytes = encoder.encode(text);
  lines.look(bytes);
  units.look(bytes);
  const starts = [0, ...Array.from(bytes.keys()).filter((at) => bytes[at] === 10).map((at) => at + 1)];
  assert.deepEqual([lines.count, units.length], [starts.length, text.length]);
  starts.forEach((start, line) => {
    const end = starts[line + 1] ?? bytes.length;
    assert.deepEqual([lines.start(line), lines.end(line), lines.at(start), lines.at(Math.max(start, end - 1))], [start, end, line, line]);
  });
  let byte = 0, unit = 0;
  for (const character of text) {
    assert.deepEqual([units.at(byte), units.byteAt(unit)], [unit, byte]);
    for (let at = byte; at < byte + lengthOf(character); at += 1) assert.deepEqual([lines.back(at), lines.on(at)], [byte, at === byte ? byte : byte + lengthOf(character)]);
    if (character.length === 2) assert.throws(() => units.byteAt(unit - 1 + 2), RangeError);
    byte += lengthOf(character);
    unit += character.length;
  }
  for (const wrong of [-1, unit + 1]) assert.throws(() => units.byteAt(wrong), RangeError);
  assert.deepEqual([units.byteAt(unit), lines.back(byte + 1), lines.on(byte + 1), lines.back(-1), lines.on(-1)], [byte, byte, byte, 0, 0]);
}

// Replaces pieces of a text, and compares all counts after each.
function counting() {
  const chance = new Chance(9);
  let text = LONG;
  const lines = new Lines(encoder.encode(text)), units = new Units(encoder.encode(text));
  compareCounts(text, lines, units);
  for (let i = 0; i < 12; i += 1) {
    const characters = [...text];
    const from = chance.below(characters.length), to = Math.min(characters.length, from + chance.oneOf([0, 1, 5, 600, 1500]));
    const piece = chance.oneOf(['', '\n', 'x', MIXED, 'y'.repeat(513), MIXED.repeat(30)]);
    const before = lengthOf(characters.slice(0, from).join('')), after = before + lengthOf(characters.slice(from, to).join(''));
    for (const measure of [lines, units]) measure.cut(before, after);
    text = [...characters.slice(0, from), piece, ...characters.slice(to)].join('');
    for (const measure of [lines, units]) measure.look(encoder.encode(text));
    for (const measure of [lines, units]) measure.put(before, lengthOf(piece));
    compareCounts(text, lines, units);
  }
  assert.deepEqual([new Lines(encoder.encode('\u00e9')).back(1), new Lines(encoder.encode('\u00e9')).on(1), new Lines(Uint8Array.of(0x80, 0x80)).back(1)], [0, 2, 0]);
  const plain = new Units(encoder.encode('abc'));
  assert.deepEqual([plain.at(2), plain.byteAt(3), plain.length], [2, 3, 3]);
}

function rows() {
  const given = () => Uint32Array.from([2, 8, 3, 3, 7, 6, 9, 3, 12, 7]);
  const numbers = new Uint32Array(16);
  const it = new Rows(numbers, 12);
  const state = () => ({ count: it.count, gap: it.gap, back: it.hasBack, front: it.front, end: it.frontEnd, rows: Array.from({ length: it.count }, (_, i) => [it.end(i), it.code(i)]) });
  const all = [[2, 8], [3, 3], [7, 6], [9, 3], [12, 7]];
  assert.deepEqual(state(), { count: 0, gap: 8, back: false, front: 0, end: 0, rows: [] });
  it.put(given());
  assert.deepEqual(state(), { count: 5, gap: 3, back: false, front: 5, end: 12, rows: all });
  it.open(1, 3);
  assert.deepEqual(state(), { count: 3, gap: 5, back: true, front: 1, end: 2, rows: [all[0], all[3], all[4]] });
  // The text grows by two bytes in the gap.
  it.look(numbers, 14);
  assert.deepEqual(state().rows, [[2, 8], [11, 3], [14, 7]]);
  it.open(2, 2);
  assert.deepEqual(state(), { count: 3, gap: 5, back: true, front: 2, end: 11, rows: [[2, 8], [11, 3], [14, 7]] });
  it.open(0, 1);
  assert.deepEqual(state().rows, [[11, 3], [14, 7]]);
  it.put(Uint32Array.from([1, 4, 2, 5]));
  assert.deepEqual(state().rows, [[1, 4], [2, 5], [11, 3], [14, 7]]);
  numbers.fill(99, 4, 12);
  assert.deepEqual([it.drop(), state().rows], [3, [[1, 4], [2, 5], [14, 7]]]);
  it.numbers.set([3, 6, 4, 7], 4);
  it.shift(2, 10);
  assert.deepEqual([...it.numbers.slice(0, 8)], [1, 4, 2, 5, 13, 6, 14, 7]);
  it.open(2, 3);
  assert.deepEqual(state().rows, [[1, 4], [2, 5]]);
  it.forgetBack();
  assert.deepEqual(state(), { count: 2, gap: 6, back: false, front: 2, end: 2, rows: [[1, 4], [2, 5]] });
  // The rows written in the gap fill it.
  const full = new Rows(new Uint32Array(6), 9);
  full.put(Uint32Array.of(3, 8, 9, 7));
  full.open(0, 1);
  full.numbers.set([1, 4, 2, 5]);
  full.shift(2, 3);
  assert.deepEqual([[...full.numbers.slice(0, 4)], full.end(0), full.code(0)], [[4, 4, 5, 5], 9, 7]);
  // No row is moved where the gap is empty.
  const tight = new Rows(new Uint32Array(4), 9);
  tight.put(Uint32Array.of(3, 8, 9, 7));
  for (let i = 0; i < 2; i += 1) tight.open(1, 1);
  assert.deepEqual([tight.gap, tight.end(0), tight.end(1)], [0, 3, 9]);
  const sorted = [1, 3, 3, 7];
  assert.deepEqual([0, 1, 2, 3, 4, 7, 8].map((least) => firstFrom(4, (i) => sorted[i], least)), [0, 0, 1, 1, 3, 3, 4]);
}

// ---- tokens

function tokens() {
  const { tokens: it } = tokensOf('((a) ) ) (b ;;c');
  assert.deepEqual(Array.from({ length: it.count }, (_, i) => [it.start(i), it.end(i), it.kind(i)]), [[0, 1, 'LParen'], [1, 2, 'LParen'], [2, 3, 'Keyword'], [3, 4, 'RParen'], [4, 5, 'Whitespace'], [5, 6, 'RParen'], [6, 7, 'Whitespace'], [7, 8, 'RParen'], [8, 9, 'Whitespace'], [9, 10, 'LParen'], [10, 11, 'Keyword'], [11, 12, 'Whitespace'], [12, 15, 'LineComment']]);
  const each = (call) => Array.from({ length: 17 }, (_, place) => call(place));
  assert.deepEqual(each((place) => it.at(place)), [0, 1, 2, 3, 4, 5, 6, 7, 8, 9, 10, 11, 12, 12, 12, 13, 13]);
  assert.deepEqual(each((place) => it.held(place)), [0, 1, 2, 3, 4, 5, 6, 7, 8, 9, 10, 11, 12, 12, 12, 12, -1]);
  assert.deepEqual(each((place) => it.pair(place)), [[0, 5], [1, 3], [1, 3], [3, 1], [3, 1], [5, 0], [5, 0], [7], [7], [9], [9], [], [], [], [], [], []]);
  assert.deepEqual([0, 2, 4, 12].map((i) => [it.isBlank(i), it.isParenthesis(i)]), [[false, true], [false, false], [true, false], [true, false]]);
  assert.deepEqual([it.partner(0), it.partner(1), it.partner(7), it.parenthesisAt(5), it.parenthesisAt(11)], [5, 3, -1, 5, -1]);
  const { tokens: faulty } = tokensOf('(a "');
  assert.deepEqual([faulty.isWhole, faulty.held(3), faulty.held(2), tokensOf('').tokens.held(0), tokensOf('a').tokens.held(1), KINDS[faulty.code(1)]], [false, -1, 2, -1, 0, 'Keyword']);
  // Tokens that were known before a change do not count.
  const reader = new Reader(new Lexer(new WebAssembly.Instance(module)));
  for (const [text, at, pairs] of [['(a)(b)', 0, [[], [], []]], ['(a)', 2, [[0], [0], []]]]) {
    reader.open(encoder.encode(text), {});
    reader.readOn();
    reader.change(at, at, encoder.encode('"'));
    reader.readOn();
    assert.deepEqual([reader.ending, ...[0, 1, 2].map((place) => new Tokens(reader).pair(place))], ['faulty', ...pairs], text);
  }
}

const NAMED = [
  ['$a', 'a'], ['@', ''], ['$""', ''], ['$"b c"', 'b c'], ['@"\\t\\n\\r\\"\\\'\\\\"', '\t\n\r"\'\\'], ['$"x\\61\\7aY"', 'xazY'], ['$"\\61b"', 'ab'], ['@"\\u{1f60_0}\\u{0}b"', '\u{1f600}\0b'],
  ['$"\\e6\\bc\\a2"', '\u6f22'], ['$"\\ff"', null], ['$"\u{1f600}\\c3"', null], ['$"\ufeff\u6f22\\u{6f22}"', '\ufeff\u6f22\u6f22'], [`@"${'\u6f22'.repeat(200_000)}\\u{61}"`, `${'\u6f22'.repeat(200_000)}a`],
];

function names() {
  for (const [word, name] of NAMED) assert.equal(nameOf(word), name, word.slice(0, 40));
}

const UNCLOSED = 'unclosed annotation', EMPTY = 'empty annotation id', MALFORMED = 'malformed UTF-8 encoding of string-based id';
// A text, the registered names, the offsets of its significant tokens, and the error of an annotation with its offset.
const COUNTED = [
  ['a (; b ;) c ;; d', [], [0, 10]], ['(@a b) c', [], [7]], ['(@a b) c', ['a'], [0, 1, 4, 5, 7]], ['(@"\\61" (b)) c', ['a'], [0, 1, 8, 9, 10, 11, 13]], ['(x (@a (b) ")") y)', ['b'], [0, 1, 16, 17]],
  ['( @a b)', [], [0, 2, 5, 6]], ['(@a)(@b)(@c d)e', ['b'], [4, 5, 7, 14]], ['x (@a (b)', [], [0], [UNCLOSED, 3]], ['x (@a (b', ['a'], [0, 2, 3, 6, 7]], ['x (@ b)', [], [0], [EMPTY, 3]],
  ['x (@"" b) y', [], [0], [EMPTY, 3]], ['x (@"\\ff" b) y', [], [0], [MALFORMED, 3]], ['x (@a "', [], [0]], ['x (@', [], [0], [EMPTY, 3]], ['x (@"', [], [0]], ['(', [], [0]], ['', [], []], ['(@a) (@ b', [], [], [EMPTY, 6]],
  ['(@"a"b c) d', [], [0, 1, 7, 8, 10]], ['(@a"b" c) d', [], [0, 1, 7, 8, 10]],
];

function significant() {
  for (const [text, registered, offsets, error] of COUNTED) {
    const { tokens: it, bytes } = tokensOf(text);
    const { numbers, wrong } = whatCounts(it, bytes, new Set(registered));
    assert.deepEqual([Array.from(numbers, (i) => it.start(i)), wrong], [offsets, error ? { what: error[0], offset: error[1] } : null], text);
  }
  // An error after the last token does not count.
  const wrong = tokensOf('a (@ b)');
  assert.deepEqual([1, 2].map((most) => whatCounts(wrong.tokens, wrong.bytes, new Set(), most).wrong?.offset), [undefined, 3]);
  const { tokens: it, bytes } = tokensOf('a (@b c) d e');
  for (const [most, wanted] of [[0, []], [1, [0]], [2, [0, 8]], [3, [0, 8, 10]], [4, [0, 8, 10]]]) {
    const { numbers } = whatCounts(it, bytes, new Set(), most);
    assert.deepEqual([Array.from(numbers, (i) => it.end(i)), numbers.length <= most], [[1, 10, 12].slice(0, wanted.length), true]);
  }
}

// ---- binary modules

// Compiles a text by the program.
function bytesBy(text) {
  const { stdout, stderr, status } = spawnSync(program, ['module', '--no-validate'], { input: text });
  assert.equal(status, 0, stderr.toString());
  return new Uint8Array(stdout);
}

function dumps() {
  const bytes = Uint8Array.from({ length: 33 }, (_, i) => 5 * i);
  const lines = ['00000000  00 05 0a 0f 14 19 1e 23 28 2d 32 37 3c 41 46 4b', '00000010  50 55 5a 5f 64 69 6e 73 78 7d 82 87 8c 91 96 9b', '00000020  a0'];
  for (const most of [0, 1, 2, 3, 4]) assert.equal(dumped(bytes, most), lines.slice(0, most).join('\n'));
  assert.equal(dumped(bytes.slice(0, 16), 9), lines[0]);
}

// Types of globals, with expressions.
const GLOBALS = [
  ['i32', 'i32.const 11'], ['i64', 'i64.const 11'], ['i64', 'i64.const -0x7000000000000000'], ['f32', 'f32.const nan:0xb0b0b'], ['f64', 'f64.const nan:0xb0b0b0b0b0b0b'], ['v128', 'v128.const i64x2 0x0b0b0b0b0b0b0b0b 0x0b0b0b0b0b0b0b0b'],
  ['funcref', 'ref.func 11'], ['funcref', 'ref.null func'], ['externref', 'ref.null extern'], ['(mut i32)', 'global.get 11'], ['i32', 'i32.add (i32.const 11) (i32.const 11)'], ['(mut f64)', 'f64.const 1'], ['i64', 'i64.const 0'],
];

// Modules, with the fields of their imports and exports, in the order of the module.
const FIELDS = [
  ['(module)', []],
  ['(import "a" "b\\"\\n" (func (param i32 i64) (result f32 f64))) (import "a" "" (memory 1)) (import "\u6f22" "t" (table 0 5 externref)) (import "" "g" (global (mut v128)))',
    ['(import "a" "b\\"\\n" (func (param i32 i64) (result f32 f64)))', '(import "a" "" (memory 1))', '(import "\u6f22" "t" (table 0 5 externref))', '(import "" "g" (global (mut v128)))']],
  // The index spaces begin with the imports.
  ['(type (func)) (import "a" "f" (func (param f64))) (func $f (result i32) i32.const 1) (memory 1 65536) (table 128 funcref) (export "0" (func 0)) (export "1" (func $f)) (export "m" (memory 0)) (export "t" (table 0))',
    ['(import "a" "f" (func (param f64)))', '(export "0" (func (param f64)))', '(export "1" (func (result i32)))', '(export "m" (memory 1 65536))', '(export "t" (table 128 funcref))']],
  // The expressions of globals are skipped, even if their constants and indices have bytes like `end`.
  [`(global $i (import "a" "g") i32) ${GLOBALS.map(([type, expression]) => `(global ${type} (${expression}))`).join(' ')} ${Array.from({ length: GLOBALS.length + 1 }, (_, i) => `(export "${i}" (global ${i}))`).join(' ')}`,
    ['(import "a" "g" (global i32))', '(export "0" (global i32))', ...GLOBALS.map(([type], i) => `(export "${i + 1}" (global ${type}))`)]],
  // Lists and names whose lengths have two bytes.
  [`${'(func (param i32))'.repeat(130)} (func (result i64) i64.const 0) (export "${'n'.repeat(200)}" (func 130)) (data "${'d'.repeat(300)}")`, [`(export "${'n'.repeat(200)}" (func (result i64)))`]],
  ['(memory 0 1) (table 0 0 funcref) (func) (start 0) (elem func 0) (data "") (export "m" (memory 0)) (export "t" (table 0))', ['(export "m" (memory 0 1))', '(export "t" (table 0 0 funcref))']],
];

function interfaces() {
  for (const [text, fields] of FIELDS) {
    const { imports, exports } = interfaceOf(bytesBy(text));
    assert.deepEqual([...imports, ...exports.map(({ field }) => field)], fields, text.slice(0, 60));
  }
  const { exports } = interfaceOf(bytesBy('(func (export "f") (param i32 v128) (result i64)) (memory (export "m") 1)'));
  assert.deepEqual(exports.map(({ name, kind, type }) => [name, kind, type]), [['f', 'func', { params: ['i32', 'v128'], results: ['i64'] }], ['m', 'memory', '1']]);
}

// Arguments that are typed: the type, the text, and the value or null.
const TYPED = [
  ['i32', '0', 0], ['i32', ' -1 ', -1], ['i32', '+7', 7], ['i32', '0x7f_ff', 0x7fff], ['i32', '-0X10', -16], ['i32', '4294967295', -1], ['i32', '2147483648', -2147483648], ['i32', '-2147483648', -2147483648], ['i32', '4294967296', null], ['i32', '-2147483649', null],
  ['i32', '', null], ['i32', '1.5', null], ['i32', 'x', null], ['i32', '1x', null], ['i32', 'x1', null], ['i32', '--1', null], ['i32', '0x', null], ['i32', '1e3', null],
  ['i64', '9223372036854775807', 9223372036854775807n], ['i64', '18446744073709551615', -1n], ['i64', '18446744073709551616', null], ['i64', '-9223372036854775808', -(1n << 63n)], ['i64', '-9223372036854775809', null], ['i64', '-0xF', -15n],
  ['f32', '0.1', 0.1], ['f64', '-1.5e3', -1500], ['f64', '1_0', 10], ['f64', '-0', -0], ['f64', 'inf', Infinity], ['f64', '+Inf', Infinity], ['f64', '-inf', -Infinity], ['f64', 'NaN', NaN], ['f64', '', null], ['f64', 'x', null], ['f64', '  ', null],
];

function values() {
  for (const [type, text, value] of TYPED) assert.deepEqual([argumentOf(type, text)], [value], `${type} ${text}`);
  const shown = [[0, '0'], [-0, '-0'], [1.5, '1.5'], [-5n, '-5'], [0n, '0'], [Infinity, 'inf'], [-Infinity, '-inf'], [NaN, 'nan'], [null, 'null'], [() => {}, 'a function'], [{}, 'a reference']];
  for (const [value, text] of shown) assert.equal(printedValue(value), text);
  const CALLED = [[[], [], true], [['i32', 'i64', 'f32', 'f64'], ['funcref', 'i32'], true], [['v128'], [], false], [['i32', 'funcref'], [], false], [['externref'], [], false], [[], ['i32', 'v128'], false]];
  for (const [params, results, isOne] of CALLED) assert.equal(isCallable({ params, results }), isOne);
}

function summaries() {
  assert.deepEqual([summaryOf('a\nb\n     --> <anon>:12:3\n      |'), summaryOf('a at <anon>:1:604'), summaryOf('a at byte offset 3')], ['Line 12, column 3: a\nb', 'Line 1, column 604: a', 'a at byte offset 3']);
  assert.deepEqual([cutLines('abc\nd\n\nefgh', 2), cutLines('ab', 2), plural(1, 'byte'), plural(0, 'byte'), plural(1234, 'byte'), visible('a\r\n\tb\n')], ['ab\nd\n\nef', 'ab', '1 byte', '0 bytes', '1,234 bytes', 'a\u240d\u21b5\u21e5b\u21b5']);
}

// ---- whole texts

const compiled = (text) => new WebAssembly.Module(bytesBy(text));
const FUNCTIONS = '(func (export "wat_page_answer") (result i32) i32.const -2147483648) (func (export "wat_page_answer_len") (result i32) i32.const 3)';
const page = (capacity, isMade) => compiled(`(module (memory (export "memory") 32769) (func (export "wat_page_room") (param i32) (result i32) i32.const ${capacity}) (func (export "wat_page_types") (result i32) i32.const ${isMade}) ${FUNCTIONS} (data (i32.const -2147483648) "abcd"))`);

function wholeTexts() {
  const unserved = new Whole(compiled('(module (memory (export "memory") 1))'));
  assert.deepEqual([unserved.isServed, new Whole(module).isServed], [false, true]);
  assert.throws(() => unserved.types(encoder.encode('(module)')), { message: 'this module only reads tokens' });
  // A module that has no memory for the text, one that rejects it, and one whose memory is larger than 2 GiB.
  assert.equal(new Whole(page(0, 1)).types(encoder.encode('x')), null);
  assert.equal(new Whole(page(-2147483640, 0)).types(encoder.encode('x')), null);
  assert.deepEqual(new Whole(page(-2147483640, 1)).types(encoder.encode('x')), encoder.encode('abc'));
  compiledTexts();
  const whole = new Whole(module);
  for (const [settings, text] of [[{ allow: true }, ';;\u202e\n'], [{ strict: false }, '"\\u{1__0}"\n'], [{ allow: true }, '"\\u{1__0}"\n'], [undefined, '"\\u{1__0}"\n']]) assert.deepEqual(whole.layOut(encoder.encode(text), settings), encoder.encode(text));
  for (const [settings, text] of [[undefined, ';;\u202e\n'], [{ strict: true }, '"\\u{1__0}"\n']]) assert.equal(whole.layOut(encoder.encode(text), settings), null);
}

// A substitute for the module whose compiler rejects a text with an error of four bytes, of which two are the message, or runs `body`.
const rejecting = (length, body = 'i32.const 0') => compiled(`(module (memory (export "memory") 1) (func (export "wat_page_room") (param i32) (result i32) i32.const 1024) (func (export "wat_page_compile") (result i32) ${body})
  (func (export "wat_page_answer") (result i32) i32.const 16) (func (export "wat_page_answer_len") (result i32) i32.const ${length}) (func (export "wat_page_message_len") (result i32) i32.const 2)
  (func (export "wat_page_error_offset") (result i32) i32.const -1) (data (i32.const 16) "ab:c"))`);

function compiledTexts() {
  const whole = new Whole(module), given = encoder.encode('(func \u{1f600})');
  assert.deepEqual(whole.compile(encoder.encode('(func nop)')), { bytes: bytesBy('(func nop)') });
  const { stderr } = spawnSync(program, ['module', '--no-validate'], { input: '(module\n frob)' });
  const { error } = whole.compile(encoder.encode('(module\n frob)'));
  assert.deepEqual([error.offset, `${error.printed}\n`, error.printed.startsWith(`${error.message}\n`)], [9, stderr.toString(), true]);
  assert.deepEqual([whole.compile(Uint8Array.of(97, 255)), whole.compile(new Uint8Array())], [null, { bytes: bytesBy('') }]);
  validatedTexts(whole);
  assert.deepEqual(new Whole(rejecting(4)).compile(given), { error: { message: 'ab', offset: 2 ** 32 - 1, printed: 'ab:c' } });
  // There is no memory for the result, or for the error's message: the next text is compiled by another instance.
  assert.equal(new Whole(rejecting(0)).compile(given), null);
  const trapping = new Whole(rejecting(4, '(global.get $n) (global.set $n (i32.const 1)) (if (i32.eqz) (then unreachable)) i32.const 0) (global $n (mut i32) (i32.const 0)) (func'));
  for (let i = 0; i < 2; i += 1) assert.equal(trapping.compile(given), null);
  const unserved = new Whole(compiled('(module (memory (export "memory") 1))'));
  assert.throws(() => unserved.compile(given), { message: 'this module only reads tokens' });
}

// Texts of modules, and the error of those that are not valid: its offset and its message.
const VALIDATED = [
  ['(func nop)', null],
  ['(func)\n(func (result i32) (i32.add (i32.const 1) (local.get 0)))', [50, 'unknown local `0`']],
  ['(func (result f32))', [1, 'type mismatch at the end of function 0: expected [f32], found []']],
  ['(memory 1) (export "a" (memory 0)) (export "a" (memory 0))', [36, 'duplicate export name']],
];

function validatedTexts(whole) {
  for (const [text, wanted] of VALIDATED) {
    const given = encoder.encode(text), bytes = bytesBy(text);
    for (const options of [undefined, {}, { validate: false }]) assert.deepEqual(whole.compile(given, options), { bytes });
    const checked = whole.compile(given, { validate: true });
    if (!wanted) assert.deepEqual(checked, { bytes });
    else assert.deepEqual([checked.bytes, checked.error.offset, checked.error.message, checked.error.printed.startsWith(`${wanted[1]}\n     --> <anon>:`)], [undefined, ...wanted, true], text);
  }
  // A syntax error is the same.
  assert.deepEqual(whole.compile(encoder.encode('(func drop frob)'), { validate: true }), whole.compile(encoder.encode('(func drop frob)')));
}

// ---- the package

const wat = new WatLex(module);
const HALVES = ['\ud83d', '\ude00', '\u{1f600}', 'a', '"', '\n'];

// A text with characters of one to four bytes, whose offsets are in UTF-16 code units.
const EDITED = '(a "\u00e9\u{1f600}" ;; \u6f22\n "\\q" b';
const EDITED_TOKENS = [['LParen', 0, 1], ['Keyword', 1, 2], ['Whitespace', 2, 3], ['String', 3, 8], ['Whitespace', 8, 9], ['LineComment', 9, 13], ['Whitespace', 13, 15]].map(([kind, start, end]) => ({ kind, start, end }));

function documents() {
  const it = wat.open(EDITED);
  const fault = { start: 17, line: 1, column: 3, message: "invalid string escape 'q'" };
  const { printed, ...rest } = it.fault;
  assert.deepEqual([it.text, it.tokens, it.count, rest, printed.split('\n')[0]], [EDITED, EDITED_TOKENS, 7, fault, fault.message]);
  assert.deepEqual(wat.lex(EDITED), { tokens: EDITED_TOKENS, fault: it.fault });
  assert.deepEqual([[...it], it.token(3), it.kind(0), it.start(0), it.start(1), it.start(3), it.end(6)], [EDITED_TOKENS, EDITED_TOKENS[3], 'LParen', 0, 1, 3, 15]);
  assert.deepEqual([0, 1, 3, 4, 5, 7, 8, 14, 15, 20].map((at) => it.at(at)), [0, 1, 3, 3, 3, 3, 4, 6, 7, 7]);
  assert.deepEqual([it.format(), it.types()], [null, null]);
  it.change(15, 19, ')');
  assert.deepEqual([it.text, it.fault, it.format(), it.types(), it.tokens.slice(6)], ['(a "\u00e9\u{1f600}" ;; \u6f22\n ) b', null, '(a "\u00e9\u{1f600}" ;; \u6f22\n) b\n', null, [['Whitespace', 13, 15], ['RParen', 15, 16], ['Whitespace', 16, 17], ['Keyword', 17, 18]].map(([kind, start, end]) => ({ kind, start, end }))]);
  it.replace('(module )');
  const bytes = Uint8Array.of(0, 97, 115, 109, 1, 0, 0, 0);
  assert.deepEqual([it.text, it.types(), it.format(), wat.types('(module)'), wat.format('( a )')], ['(module )', bytes, '(module)\n', bytes, '(a)\n']);
  it.replace(';;\u202e', { allowConfusingUnicode: true });
  assert.deepEqual([it.fault, it.format(), wat.lex('"\\u{1__0}"').fault], [null, ';;\u202e\n', null]);
  it.change(0, 0, '"\\u{1__0}"');
  assert.deepEqual([it.fault, wat.lex(';;\u202e').fault.start, wat.lex('"\\u{1__0}"', { strictUnderscores: true }).fault.line], [null, 2, 0]);
  assert.equal(wat.open('\ufeff(a)').text, '\ufeff(a)');
  compiledDocuments();
  const long = wat.lex(`${'x'.repeat(600)} "\\q`).fault;
  assert.deepEqual([long.message, long.printed, long.column], ["invalid string escape 'q'", "invalid string escape 'q' at <anon>:1:604", 603]);
  assert.deepEqual([new Document(module).text, new Document(module, 'a').count], ['', 1]);
}

function compiledDocuments() {
  const it = wat.open('(module\n  (; \u{1f600} ;) (func frob))');
  const error = thrownBy(() => it.compile());
  assert.ok(error instanceof CompileError && error instanceof Error);
  const { name, message, offset, line, column, printed } = error;
  const { stderr } = spawnSync(program, ['module', '--no-validate'], { input: it.text });
  assert.deepEqual([name, offset, line, column, `${printed}\n`, printed.startsWith(`${message}\n`)], ['CompileError', 25, 1, 17, stderr.toString(), true]);
  assert.deepEqual(thrownBy(() => wat.compile(it.text)).message, message);
  it.change(25, 29, 'nop');
  assert.deepEqual([it.compile(), wat.compile(it.text)], [bytesBy(it.text), bytesBy(it.text)]);
  // The standard allows confusing characters, and not two underscores in a row, whatever the flags of the lexer.
  assert.deepEqual([thrownBy(() => wat.compile('(module "\\q')).offset, wat.compile(';;\u202e'), thrownBy(() => wat.compile('(data "\\u{1__0}")')).offset], [10, bytesBy(''), 12]);
  it.replace('(; \u{1f600} ;)\n(func drop)');
  assert.deepEqual([it.compile(), it.compile({}), wat.compile(it.text), wat.compile('(func)', { validate: true })], [it.text, it.text, it.text, '(func)'].map(bytesBy));
  for (const call of [() => it.compile({ validate: true }), () => wat.compile(it.text, { validate: true })]) {
    const invalid = thrownBy(call);
    assert.deepEqual([invalid instanceof CompileError, invalid.message, invalid.offset, invalid.line, invalid.column], [true, 'type mismatch: expected an operand, found []', 15, 1, 6]);
  }
  const { compile } = Whole.prototype;
  Whole.prototype.compile = () => null;
  assert.throws(() => it.compile(), { name: 'RangeError', message: 'there is no memory to compile the text' });
  Whole.prototype.compile = compile;
}

function thrownBy(call) {
  try {
    call();
  } catch (error) {
    return error;
  }
  return null;
}

// Changes of a document that are rejected, by the error that they throw.
const REJECTED = [[TypeError, ['1', 1, 'x'], [1, '1', 'x'], [1, 1, 5]], [RangeError, [0.5, 1, 'x'], [0, 1.5, 'x'], [3, 1, 'x'], [0, 99, 'x'], [5, 6, 'x'], [-1, 1, 'x']]];

function rejections() {
  const it = wat.open(EDITED);
  for (const [error, ...all] of REJECTED) for (const given of all) assert.throws(() => it.change(...given), error, `${given}`);
  for (const method of ['kind', 'start', 'end', 'token']) for (const [error, ...all] of [[TypeError, '0'], [RangeError, 0.5, -1, 7]]) for (const given of all) assert.throws(() => it[method](given), error, `${method} ${given}`);
  for (const [error, given] of [[TypeError, '0'], [RangeError, 0.5], [RangeError, -1], [RangeError, 99], [RangeError, 6]]) assert.throws(() => it.at(given), error);
  for (const call of [() => it.replace(5), () => wat.lex(null), () => wat.open(5)]) assert.throws(call, TypeError);
  assert.deepEqual([it.text, it.tokens], [EDITED, EDITED_TOKENS]);
}

// Edits a text with halves of surrogate pairs at random, and compares it with the string of an editor, which keeps them.
function halves() {
  const chance = new Chance(4), it = wat.open('a\ud83d"');
  let text = 'a\ud83d"';
  for (let i = 0; i < 200; i += 1) {
    const offsets = Array.from({ length: text.length + 1 }, (_, at) => at).filter((at) => !/^[\ud800-\udbff][\udc00-\udfff]$/.test(text.slice(Math.max(0, at - 1), at + 1)));
    const first = chance.below(offsets.length), from = offsets[first], to = offsets[Math.min(offsets.length - 1, first + chance.below(4))];
    const piece = Array.from({ length: chance.below(4) }, () => chance.oneOf(HALVES)).join('');
    it.change(from, to, piece);
    text = text.slice(0, from) + piece + text.slice(to);
    if (text.length > 40) it.replace(text = text.slice(0, 5));
    assert.equal(it.text, text.toWellFormed());
    assert.deepEqual({ tokens: it.tokens, fault: it.fault }, wat.lex(text));
  }
}

// The module as bytes, and as what an address names.
async function loading() {
  const given = readFileSync(new URL('out/wat-lex/wat_lex.wasm', import.meta.url));
  const fetched = [], { fetch } = globalThis;
  globalThis.fetch = async (source) => { fetched.push(String(source)); return { arrayBuffer: async () => given }; };
  for (const source of [given, 'wat', new URL('file:///wat'), undefined]) assert.equal((await load(source)).lex('(a)').tokens.length, 3);
  assert.deepEqual(fetched, ['wat', 'file:///wat', new URL('wat-lex/wat_lex.wasm', import.meta.url).href]);
  globalThis.fetch = fetch;
}

const checks = [rows, tokens, memory, partsOfTexts, places, layoutPlaces, significant, dumps, interfaces, values, summaries, names, documents, rejections, loading, kept, stretches, editing, halves, counting, changes, longMessages, wholeTexts];
for (const check of checks) await check();
console.log(`parts.mjs: ${checks.length} checks passed`);
