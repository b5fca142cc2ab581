// The package's entry in Node; reads the module from the disk.
import { readFileSync } from 'node:fs';
import { WatLex, load as loadFrom } from './index.js';

export * from './index.js';

const read = () => readFileSync(new URL('./wat_lex.wasm', import.meta.url));

export const load = async (source = read()) => loadFrom(source);
export const loadSync = () => new WatLex(new WebAssembly.Module(read()));
