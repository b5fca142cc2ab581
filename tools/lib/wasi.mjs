// Runs a WASI program with its arguments and the machine's files: node tools/lib/wasi.mjs PROGRAM [WORD]..
import { readFile } from 'node:fs/promises';
import { WASI } from 'node:wasi';

const [, , program, ...words] = process.argv;
const preopens = { '/': '/' };
const wasi = new WASI({ version: 'preview1', args: [program, ...words], env: process.env, preopens });
const { instance } = await WebAssembly.instantiate(await readFile(program), wasi.getImportObject());
process.exit(wasi.start(instance));
