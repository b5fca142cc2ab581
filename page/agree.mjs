// Compares the module, and the page's use of its results, with the program, in node, on all golden texts and on 10 MB of generated text: every token,
// and every lexical error with its message; the significant tokens under several names; binary modules, and the errors of the compiler. Also compares texts
// that are lexed in parts, in order or ahead, as a whole and after each of many edits, with one call of the module. Compares formatted texts with
// tools/differential/reference_formatter.py: on all sequences of up to three hostile fragments, on random longer ones, and on the texts above.
// usage: node agree.mjs PROGRAM, once build.sh has made the module
import { spawnSync } from 'node:child_process';
import { existsSync, readFileSync, readdirSync } from 'node:fs';
import { fileURLToPath } from 'node:url';
import { interfaceOf } from './binary.js';
import { whatCounts } from './counts.js';
import { Chance, compare, editOften, readAhead, readOnce } from './edited.mjs';
import { KINDS, Lexer } from './wat-lex/lexer.js';
import { Reader } from './wat-lex/reader.js';
import { Tokens } from './wat-lex/tokens.js';
import { Whole } from './wat-lex/whole.js';

const program = process.argv[2];
if (!program) throw new Error('usage: node agree.mjs PROGRAM');
const here = (name) => fileURLToPath(new URL(name, import.meta.url));
const module = new WebAssembly.Module(readFileSync(here('out/wat-lex/wat_lex.wasm')));
const lexer = new Lexer(new WebAssembly.Instance(module));
const whole = new Whole(module);
const reader = new Reader(new Lexer(new WebAssembly.Instance(module)));
const FLAGS = { '--allow-confusing': 'allow', '--strict-underscores': 'strict' };
const MUTATIONS = 40;
const EDITS = 60;
const AHEAD = 5;

function readWhole(bytes, flags) {
  const found = readOnce(lexer, bytes, flags);
  if (found.ending !== 'whole' && found.ending !== 'faulty') throw new Error(`a text that is ${found.ending}`);
  return found;
}

function ran(words, input) {
  const its = spawnSync(program, words, { input, maxBuffer: 2 ** 31 - 1 });
  if (its.error) throw its.error;
  if (its.status > 1) throw new Error(`${program} ${words.join(' ')}: ${its.stderr}`);
  return { output: its.stdout, list: its.stdout.toString(), fault: its.stderr.toString(), isRefused: its.status === 1 };
}

const flagsOf = (words) => Object.fromEntries(words.filter((word) => word in FLAGS).map((word) => [FLAGS[word], true]));
const lineOf = (tokens, i) => `${tokens.start(i)}..${tokens.end(i)} ${tokens.kind(i)}\n`;

const seen = { stored: 0, tokens: 0, faults: 0, edits: 0, stretches: 0, signatures: 0, counting: 0, wrong: 0, modules: 0, refused: 0, compiled: 0, uncompiled: 0, valid: 0, invalid: 0, other: [] };

// Compares the list and the reported error with both streams of the program.
function compareTokens(name, bytes, words) {
  const found = readWhole(bytes, flagsOf(words));
  const rows = [];
  let at = 0;
  for (let i = 0; i < found.count; i += 1) {
    const end = found.rows[2 * i];
    rows.push(`${at}..${end} ${KINDS[found.rows[2 * i + 1]]}\n`);
    at = end;
  }
  const list = rows.join('');
  const fault = found.ending === 'faulty' ? `${found.message}\n` : '';
  const its = ran(words, bytes);
  seen.tokens += found.count;
  seen.faults += fault ? 1 : 0;
  if (list !== its.list || fault !== its.fault) seen.other.push(name);
  return list;
}

// Compares a text that is lexed in parts, and after edits, with one call of the module.
function compareParts(bytes, flags, times, chance) {
  reader.open(bytes, flags);
  reader.readOn();
  compare(reader, lexer, flags);
  if (times > 0) editOften(reader, lexer, bytes.toString(), times, chance);
  for (let i = 0; i < AHEAD; i += 1) seen.stretches += readAhead(reader, lexer, bytes, flags, chance);
  seen.edits += times;
}

// Compares formatted texts with those of tools/differential/reference_formatter.py.
function compareLayouts(files) {
  if (!whole.isServed) {
    console.log('layouts and bytes of types: left out, as the module takes no memory');
    return;
  }
  const its = spawnSync('python3', [here('../tools/differential/compare_formatters.py'), '--alone', here('laid.mjs'), ...files], { maxBuffer: 2 ** 30 });
  console.log(its.stdout.toString().trim());
  if (its.status !== 0) seen.other.push(`layouts: ${its.stderr}`);
}

// Returns the start of the program's report of an annotation's error, without the rendered line.
function beginningOf({ what, offset }, bytes) {
  if (what.startsWith('unclosed')) return `${what} at byte offset ${offset}\n`;
  const line = bytes.subarray(0, offset).toString('latin1').split('\n').length;
  return `${what}\n${' '.repeat(5)}--> <anon>:${line}:`;
}

// Compares the significant tokens with the output of `sig` under these names.
function compareCounts(name, bytes, words, names) {
  const found = readWhole(bytes, flagsOf(words));
  const tokens = new Tokens(found);
  const { numbers, wrong } = whatCounts(tokens, found.bytes, new Set(names));
  const its = ran([...words, 'sig', ...names], bytes);
  const list = Array.from(numbers, (i) => lineOf(tokens, i)).join('');
  const fault = wrong ? beginningOf(wrong, bytes) : found.ending === 'faulty' ? `${found.message}\n` : '';
  seen.signatures += 1;
  seen.counting += numbers.length;
  seen.wrong += wrong ? 1 : 0;
  const isSame = list === its.list && its.isRefused === Boolean(wrong || found.ending === 'faulty') && its.fault.startsWith(fault);
  if (!isSame) seen.other.push(`${name}: sig ${names.join(' ')}`);
}

// Compares the binary module with the output of `types`.
function compareTypes(name, bytes) {
  if (!whole.isServed) return;
  const found = readWhole(bytes, {});
  const mine = found.ending === 'whole' ? whole.types(found.bytes) : null;
  const its = ran(['types'], bytes);
  seen[mine ? 'modules' : 'refused'] += 1;
  if (its.isRefused ? mine !== null : mine === null || !its.output.equals(mine)) seen.other.push(`${name}: types`);
}

// Compares the binary module, or the compiler's error, with the output of `module`.
function compareModules(name, bytes) {
  if (!whole.isServed) return;
  const { bytes: mine, error } = whole.compile(bytes);
  const its = ran(['module', '--no-validate'], bytes);
  seen[mine ? 'compiled' : 'uncompiled'] += 1;
  const isSame = its.isRefused ? error && its.fault === `${error.printed}\n` && error.printed.startsWith(error.message) : mine && its.output.equals(mine);
  if (!isSame) seen.other.push(`${name}: module`);
  if (mine) compareValidity(name, bytes, mine);
  if (mine && WebAssembly.validate(mine)) compareInterfaces(name, mine);
}

// Compares whether a module is valid with node's engine.
function compareValidity(name, bytes, mine) {
  const { bytes: checked, error } = whole.compile(bytes, { validate: true }), isValid = WebAssembly.validate(mine);
  seen.invalid += isValid ? 0 : 1;
  if (isValid ? !checked || Buffer.compare(checked, mine) !== 0 : !error) seen.other.push(`${name}: validity`);
}

// Compares the imports and the exports of a valid module with those that node's engine lists.
function compareInterfaces(name, mine) {
  const { imports, exports } = interfaceOf(mine), compiled = new WebAssembly.Module(mine);
  const kinds = { function: 'func' };
  const imported = WebAssembly.Module.imports(compiled).map((it) => `(import ${JSON.stringify(it.module)} ${JSON.stringify(it.name)} (${kinds[it.kind] ?? it.kind}`);
  const exported = WebAssembly.Module.exports(compiled).map((it) => `${it.name} ${kinds[it.kind] ?? it.kind}`);
  seen.valid += 1;
  const isSame = imported.length === imports.length && imported.every((start, i) => imports[i].startsWith(start));
  if (!isSame || exported.join('\n') !== exports.map((it) => `${it.name} ${it.kind}`).join('\n')) seen.other.push(`${name}: interface`);
}

const GENERATE = `import json, sys
sys.path.insert(0, sys.argv[1])
from generate_modules import FORMS, choices, made_texts
json.dump([text for _, _, text in made_texts(choices(5, FORMS), 150, 450)], sys.stdout)`;

// Returns the texts of tests/modules.txt, and modules that tools/differential generates, with mutants.
function moduleTexts() {
  const rows = readFileSync(here('../tests/modules.txt'), 'utf8').split('\n').filter((row) => !row.startsWith('#'));
  const texts = rows.filter((_, i) => i % 2 === 0).map((row) => row.replaceAll('\u23ce', '\n').replaceAll('\u2420', ' '));
  const its = spawnSync('python3', ['-c', GENERATE, here('../tools/differential')], { maxBuffer: 2 ** 30 });
  if (its.status !== 0) throw new Error(its.stderr.toString());
  return [...texts, ...JSON.parse(its.stdout)];
}

const chance = new Chance(1), editing = new Chance(2);
const chosen = (count) => chance.below(count);
const oneOf = (parts) => chance.oneOf(parts);
const many = (most, make) => Array.from({ length: chosen(most + 1) }, make);

// Returns the tokens of a module of up to `most` types, each followed by trivia.
function moduleOf(most) {
  const values = () => many(4, () => oneOf(['i32', 'i64', 'f32', 'f64']));
  const group = (word, parts) => ['(', word, ...parts, ')'];
  const param = () => group('param', oneOf([values(), ['$"a\\u{62}"', 'i64'], ['$p', 'f32']]));
  const signature = () => group('func', [...many(3, param), ...many(2, () => group('result', values()))].flat());
  const types = many(most, () => group('type', [...oneOf([[], ['$t']]), ...signature()]));
  return group('module', types.flat()).flatMap((token) => [token, oneOf([' ', '\n', '\t', ' (; a comment ;) ', ' ;; a comment\n', ' (@a (b) "c") '])]);
}

// Yields modules of types, and many variants of each, with a token removed, doubled or replaced.
function* modules() {
  for (let most = 0; most < 40; most += 1) {
    const parts = moduleOf(most);
    yield parts.join('');
    for (let i = 0; i < MUTATIONS; i += 1) {
      const at = chosen(parts.length);
      const put = oneOf([[], [parts[at], ' ', parts[at]], [oneOf(parts)], ['(@a x)', parts[at]], ['$""', parts[at]]]);
      yield [...parts.slice(0, at), ...put, ...parts.slice(at + 1)].join('');
    }
  }
}

const folder = here('../crates/wat_tokens/agreement/');
const NAMES = [[], ['a', 'custom', 'name'], ['metadata.code.branch_hint', 'x', 'b']];
for (const name of readdirSync(folder).filter((it) => existsSync(`${folder}${it}.stdout`))) {
  const words = existsSync(`${folder}${name}.args`) ? readFileSync(`${folder}${name}.args`, 'utf8').split('\n').filter(Boolean) : [];
  const bytes = readFileSync(folder + name);
  const flags = words.filter((word) => word in FLAGS);
  const isSignature = words[flags.length] === 'sig';
  if (words.length === flags.length) {
    const list = compareTokens(name, bytes, words);
    if (list !== readFileSync(`${folder}${name}.stdout`, 'utf8')) seen.other.push(`${name}.stdout`);
    seen.stored += 1;
  }
  for (const names of isSignature ? [words.slice(flags.length + 1), ...NAMES] : NAMES) compareCounts(name, bytes, flags, names);
  compareTypes(name, bytes);
  compareModules(name, bytes);
  compareParts(bytes, flagsOf(flags), EDITS, editing);
}
for (const text of modules()) {
  const bytes = Buffer.from(text);
  compareTypes(text, bytes);
  compareModules(text, bytes);
  compareCounts(text, bytes, [], []);
}
for (const text of moduleTexts()) compareModules(text, Buffer.from(text));
const generated = spawnSync('python3', [here('../tools/lib/generate_text.py'), '10'], { maxBuffer: 2 ** 30 });
if (generated.error) throw generated.error;
const text = generated.stdout;
compareTokens('generated', text, []);
compareParts(text, {}, 0, editing);
seen.stretches += readAhead(reader, lexer, text, {}, editing, 200_000);
for (let at = 0; at < 20; at += 1) compareParts(text.subarray(at * 400_000, at * 400_000 + (at % 4 === 0 ? 300_000 : 20_000)), {}, 2 * EDITS, editing);
for (const names of [[], ['custom']]) compareCounts('generated', text, [], names);
for (const name of ['a'.repeat(500_000), '\u6f22\\61\\u{1f600}'.repeat(50_000), '\\ff'.repeat(200_000)]) compareCounts('a long name', Buffer.from(`x (@"${name}" y) z`), [], []);
compareLayouts(readdirSync(folder).filter((it) => existsSync(`${folder}${it}.stdout`)).map((it) => folder + it));
for (const strict of [false, true]) {
  const times = [];
  for (let i = 0; i < 9; i += 1) {
    const start = performance.now();
    readWhole(text, { strict });
    times.push(performance.now() - start);
  }
  console.log(`generated text of ${text.length} bytes: ${Math.min(...times).toFixed(1)} ms at best of ${times.length}`);
}
const { other, ...counts } = seen;
for (const name of other.slice(0, 20)) console.log(`other than the program: ${name.slice(0, 200)}`);
console.log(`agree.mjs: ${Object.entries(counts).map(([what, count]) => `${what} ${count}`).join(', ')}; ${other.length} differ`);
process.exit(other.length > 0 || seen.stored === 0 || (whole.isServed && Math.min(seen.modules, seen.compiled, seen.uncompiled, seen.valid, seen.invalid) === 0) ? 1 : 0);
