// Compares the results of the npm package, whose offsets are in UTF-16 code units, with the program on all golden texts; and, after each of many
// random edits, with its results for the whole text. Compares the modules that it compiles with those of the program. Checks that wrong arguments are
// rejected, and leave a document unchanged.
// usage: node packaged.mjs PROGRAM, once build.sh has made the package
import assert from 'node:assert/strict';
import { spawnSync } from 'node:child_process';
import { existsSync, readFileSync, readdirSync } from 'node:fs';
import { fileURLToPath } from 'node:url';
import { changeOf } from './edits.js';
import { Chance, Edits } from './edited.mjs';
import { CompileError, load, loadSync } from './out/wat-lex/node.js';
import { Whole } from './wat-lex/whole.js';

const program = process.argv[2];
if (!program) throw new Error('usage: node packaged.mjs PROGRAM');
const folder = fileURLToPath(new URL('../crates/wat_tokens/agreement/', import.meta.url));
const EDITS = 40;
const HALVES = 2000;
// Whether the module allocates, as formatted texts and binary modules need.
const { isServed } = new Whole(new WebAssembly.Module(readFileSync(fileURLToPath(new URL('out/wat-lex/wat_lex.wasm', import.meta.url)))));
const wat = loadSync();
assert.deepEqual((await load()).lex('(a)'), wat.lex('(a)'));
const document = wat.open();
const seen = { texts: 0, tokens: 0, faults: 0, layouts: 0, types: 0, compiled: 0, uncompiled: 0, edits: 0, halves: 0, rejected: 0 };

// Returns the program's output for a text.
function ran(words, input) {
  const { stdout, stderr, status } = spawnSync(program, words, { input, maxBuffer: 2 ** 30 });
  return { said: stdout.toString(), fault: stderr.toString(), status };
}

// Formats the list and the error of a text like the program, with byte offsets.
function printed(text, { tokens, fault }) {
  let at = 0;
  const rows = tokens.map(({ kind, start, end }) => {
    const from = at;
    at += Buffer.byteLength(text.slice(start, end));
    return `${from}..${at} ${kind}\n`;
  });
  return { said: rows.join(''), fault: fault ? `${fault.printed}\n` : '' };
}

// Returns the binary module of a text, or the compiler's error.
function compiled(text) {
  try {
    return { bytes: Buffer.from(wat.compile(text)) };
  } catch (error) {
    assert.ok(error instanceof CompileError, error);
    return { error };
  }
}

// Compares the binary module, or the error and its location, with the output of `module`.
function compareCompiled(text) {
  const { bytes, error } = compiled(text);
  const { stdout, stderr, status } = spawnSync(program, ['module', '--no-validate'], { input: text });
  seen[bytes ? 'compiled' : 'uncompiled'] += 1;
  if (bytes) {
    assert.deepEqual([bytes, status], [stdout, 0]);
    return;
  }
  const { message, name, offset, line, column, printed } = error;
  assert.deepEqual([`${printed}\n`, status, name, printed.startsWith(message)], [stderr.toString(), 1, 'CompileError', true]);
  const before = text.slice(0, offset).split('\n');
  assert.deepEqual([line, column], [before.length - 1, before.at(-1).length]);
  assert.equal(Number(/<anon>:(\d+)/.exec(printed)?.[1] ?? line + 1), line + 1);
}

function compareWithProgram(text, flags, words) {
  const found = wat.lex(text, flags);
  const { said, fault } = ran(words, text);
  assert.deepEqual(printed(text, found), { said, fault });
  if (found.fault) {
    const { start, line, column, message } = found.fault;
    const before = text.slice(0, start).split('\n');
    assert.deepEqual([line, column], [before.length - 1, before.at(-1).length]);
    assert.ok(fault.startsWith(message.split('\n')[0]));
  }
  if (words.length === 0 && isServed) {
    const laid = ran(['fmt'], text), types = spawnSync(program, ['types'], { input: text });
    assert.equal(wat.format(text), laid.status === 0 ? laid.said : null);
    assert.deepEqual(wat.types(text), types.status === 0 ? new Uint8Array(types.stdout) : null);
    compareCompiled(text);
    seen.layouts += 1;
    seen.types += types.status === 0 ? 1 : 0;
  }
  seen.texts += 1;
  seen.tokens += found.tokens.length;
  seen.faults += found.fault ? 1 : 0;
}

function compareEdited(given, flags, chance) {
  const edits = new Edits(chance);
  let text = given.toWellFormed();
  document.replace(text, flags);
  for (let i = 0; i < EDITS; i += 1) {
    const next = edits.next(text).toWellFormed();
    const change = changeOf(text, next);
    document.change(change.from, change.to, change.text);
    text = next;
    const whole = wat.lex(text, flags);
    assert.equal(document.text, text);
    assert.deepEqual({ tokens: document.tokens, fault: document.fault }, whole);
    if (document.count > 0) {
      const token = chance.below(document.count);
      assert.deepEqual([document.token(token), document.at(document.start(token))], [whole.tokens[token], token]);
    }
  }
  seen.edits += EDITS;
}

const isWithinPair = (text, at) => /^[\ud800-\udbff][\udc00-\udfff]$/.test(text.slice(Math.max(0, at - 1), at + 1));

// Edits a text at random, with halves of surrogate pairs, which may meet. The document must have the string of an editor, which keeps them.
function compareHalves(chance) {
  let text = 'a\ud83d"';
  document.replace(text);
  for (let i = 0; i < HALVES; i += 1) {
    const offsets = Array.from({ length: text.length + 1 }, (_, at) => at).filter((at) => !isWithinPair(text, at));
    const first = chance.below(offsets.length);
    const from = offsets[first], to = offsets[Math.min(offsets.length - 1, first + chance.below(4))];
    const piece = Array.from({ length: chance.below(4) }, () => chance.oneOf(['\ud83d', '\ude00', '\u{1f600}', 'a', '"', '\n'])).join('');
    document.change(from, to, piece);
    text = text.slice(0, from) + piece + text.slice(to);
    assert.equal(document.text, text.toWellFormed());
    assert.deepEqual({ tokens: document.tokens, fault: document.fault }, wat.lex(text));
  }
  seen.halves += HALVES;
}

// The arguments of `change` that it must reject, and those of the methods with one offset or index, for a text of five code units, of which the second
// and the third are a surrogate pair.
const WRONG_CHANGES = [
  [TypeError, ['1', '1', 'x'], ['1', 1, 'x'], [1, '1', 'x'], [1n, 1n, 'x'], [undefined, 1, 'x'], [1, null, 'x'], [1, 1], [1, 1, 5], [1, 1, null], [1, 1, ['x']]],
  [RangeError, [0.5, 1, 'x'], [3.5, 4.7, 'x'], [NaN, 1, 'x'], [0, Infinity, 'x'], [-1, 1, 'x'], [3, 1, 'x'], [0, 6, 'x'], [6, 6, 'x'], [2, 2, 'x'], [0, 2, 'x'], [2, 3, 'x']],
];
const WRONG_NUMBERS = [[TypeError, '0', 0n, null, undefined, [0]], [RangeError, 0.5, NaN, -1, 6, Infinity]];

function compareRejected() {
  document.replace('a\u{1f600} b');
  const state = () => ({ text: document.text, tokens: document.tokens, fault: document.fault });
  const before = state();
  const reject = (error, call, given) => {
    assert.throws(call, error, given);
    assert.deepEqual(state(), before, given);
    seen.rejected += 1;
  };
  for (const [error, ...all] of WRONG_CHANGES) for (const given of all) reject(error, () => document.change(...given), given.map(String).join());
  for (const method of ['kind', 'start', 'end', 'token', 'at']) {
    for (const [error, ...all] of WRONG_NUMBERS) for (const given of all) reject(error, () => document[method](given), `${method} ${given}`);
  }
  for (const given of [5, null, ['x']]) reject(TypeError, () => document.replace(given), `replace ${given}`);
  const { grow } = WebAssembly.Memory.prototype;
  WebAssembly.Memory.prototype.grow = () => { throw new RangeError('refused'); };
  for (const call of [() => document.change(0, 0, ' '.repeat(3e6)), () => document.replace(' '.repeat(3e6))]) reject(RangeError, call, 'no memory');
  WebAssembly.Memory.prototype.grow = grow;
}

const FLAGS = { '--allow-confusing': 'allowConfusingUnicode', '--strict-underscores': 'strictUnderscores' };
const chance = new Chance(3);
for (const name of readdirSync(folder).filter((it) => existsSync(`${folder}${it}.stdout`))) {
  const words = existsSync(`${folder}${name}.args`) ? readFileSync(`${folder}${name}.args`, 'utf8').split('\n').filter(Boolean) : [];
  const bytes = readFileSync(folder + name), text = bytes.toString();
  const flags = Object.fromEntries(words.filter((word) => word in FLAGS).map((word) => [FLAGS[word], true]));
  if (!Buffer.from(text).equals(bytes) || words.some((word) => !(word in FLAGS))) continue;
  compareWithProgram(text, flags, words);
  compareEdited(text, flags, chance);
}
// Longer texts of several blocks, also with characters of two, three and four bytes.
const generated = spawnSync('python3', [fileURLToPath(new URL('../tools/lib/generate_text.py', import.meta.url)), '1'], { maxBuffer: 2 ** 30 }).stdout.toString();
for (let at = 0; at < 6; at += 1) {
  const text = generated.slice(at * 100_000, at * 100_000 + 3_000 * 4 ** (at % 3));
  compareEdited(at < 3 ? text : text.replaceAll('a', () => chance.oneOf(['a', '\u00e9', '\u6f22', '\u{1f600}'])), {}, chance);
}
// A text that outgrows the memory with which it was opened.
const line = generated.indexOf('\n', 500_000), half = generated.slice(0, line);
const growing = wat.open(`${half};; \u{1f600}\n`.repeat(5).slice(0, 2_600_000));
growing.change(line, line, half.slice(0, 100_000));
growing.change(9, 9, ' ');
const after = wat.lex(growing.text);
assert.deepEqual([growing.count, growing.fault, growing.end(growing.count - 1)], [after.tokens.length, after.fault, after.tokens.at(-1).end]);
for (let i = 0; i < growing.count; i += 997) assert.deepEqual(growing.token(i), after.tokens[i]);
if (isServed) assert.deepEqual(wat.types('(module (type (func (param i32))))'), Uint8Array.of(0, 97, 115, 109, 1, 0, 0, 0, 1, 5, 1, 96, 1, 127, 0));
if (isServed) {
  const rows = readFileSync(fileURLToPath(new URL('../tests/modules.txt', import.meta.url)), 'utf8').split('\n').filter((row) => !row.startsWith('#'));
  for (const text of rows.filter((_, i) => i % 2 === 0)) compareCompiled(text.replaceAll('\u23ce', '\n').replaceAll('\u2420', ' '));
}
compareHalves(chance);
compareRejected();
console.log(`packaged.mjs: ${Object.entries(seen).map(([what, count]) => `${what} ${count}`).join(', ')}; none differ`);
process.exit(seen.texts > 0 && seen.edits > 0 ? 0 : 1);
