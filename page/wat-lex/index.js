// The package's entry for environments in which `fetch` finds the module next to this file: browsers, workers, Deno.
import { Document } from './document.js';

export { CompileError, Document } from './document.js';
export { KINDS } from './lexer.js';

// A lexer over a compiled module.
export class WatLex {
  #module;
  // The document of the calls that do not return one.
  #shared = null;

  constructor(module) { this.#module = module; }

  // Opens a text for editing. Each document has its own memory.
  open(text, flags) { return new Document(this.#module, text, flags); }

  // Returns the tokens of a text, and its lexical error or null.
  lex(text, flags) {
    const { tokens, fault } = this.#once(text, flags);
    return { tokens, fault };
  }

  // Returns the formatted text, or null if the text has a lexical error or memory runs out.
  format(text) { return this.#once(text).format(); }

  // Returns the binary module. Throws a `CompileError` if the text is not a module, or with `validate` if the module is not valid, and a `RangeError` if
  // memory runs out.
  compile(text, options) { return this.#once(text).compile(options); }

  // Returns the binary module, or null if the text is not a module of function types alone or memory runs out.
  types(text) { return this.#once(text).types(); }

  #once(text, flags) {
    this.#shared ??= this.open();
    this.#shared.replace(text, flags);
    return this.#shared;
  }
}

export async function load(source = new URL('./wat_lex.wasm', import.meta.url)) {
  const bytes = source instanceof URL || typeof source === 'string' ? await (await fetch(source)).arrayBuffer() : source;
  return new WatLex(await WebAssembly.compile(bytes));
}
