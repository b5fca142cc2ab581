#!/usr/bin/env node
// Prints the formatted text of each line of standard input as a line, or `fault`, like rust/wat-tokens/examples/layouts.rs, so that
// tools/differential/compare_formatters.py also compares the module's formatted texts. In a line, `\n`, `\r`, `\t` and `\\` are escapes for line
// feed, carriage return, tab and backslash.
// usage: laid.mjs < TEXTS, once build.sh has made the module
import { readFileSync } from 'node:fs';
import { decoder } from './wat-lex/lexer.js';
import { Whole } from './wat-lex/whole.js';

const module = new WebAssembly.Module(readFileSync(new URL('out/wat-lex/wat_lex.wasm', import.meta.url)));
const whole = new Whole(module);
const encoder = new TextEncoder();
const CHARACTERS = { n: '\n', r: '\r', t: '\t', '\\': '\\' };
const WORDS = { '\n': '\\n', '\r': '\\r', '\t': '\\t', '\\': '\\\\' };

function laid(text) {
  const laidOut = whole.layOut(encoder.encode(text));
  return laidOut && decoder.decode(laidOut);
}

const lines = readFileSync(0, 'utf8').split('\n').slice(0, -1);
const answers = lines.map((line) => laid(line.replace(/\\([nrt\\])/g, (_, letter) => CHARACTERS[letter])));
process.stdout.write(answers.map((it) => `${it === null ? 'fault' : it.replace(/[\n\r\t\\]/g, (one) => WORDS[one])}\n`).join(''));
