// Results for a whole text, in memory that the module allocates itself: the formatted text, and the binary module. The instance is separate from that
// of a `Lexer`, which uses the memory without the module's allocator.
import { decoder } from './lexer.js';

export class Whole {
  #module;
  #exports = null;

  constructor(module) {
    this.#module = module;
    // Whether the module allocates at all; that of Rattle's compiler does not.
    this.isServed = WebAssembly.Module.exports(module).some(({ name }) => name === 'wat_page_room');
  }

  // Returns the formatted text, or null if the text has a lexical error or an allocation fails.
  layOut(bytes, { allow = false, strict = false } = {}) { return this.#make(bytes, ({ wat_page_lay_out }) => wat_page_lay_out(allow, strict)); }

  // Compiles a text by the standard's rules; with `validate`, the module must be valid. Returns the binary module as `bytes`, or the compiler's `error`:
  // its message, its byte offset, and the error as the program prints it. Returns null if an allocation fails.
  compile(text, { validate = false } = {}) {
    try {
      const bytes = this.#make(text, ({ wat_page_compile }) => wat_page_compile(validate));
      return bytes ? { bytes } : this.#rejected();
    } catch (error) {
      if (!(error instanceof WebAssembly.RuntimeError)) throw error;
      // There was no memory for the error's message. An instance that has trapped cannot be used again.
      this.#exports = null;
      return null;
    }
  }

  #rejected() {
    const { wat_page_error_offset, wat_page_message_len } = this.#exports;
    const printed = this.#answer();
    if (printed.length === 0) return null;
    const message = decoder.decode(printed.subarray(0, wat_page_message_len() >>> 0));
    return { error: { message, offset: wat_page_error_offset() >>> 0, printed: decoder.decode(printed) } };
  }

  // Returns the binary module, or null if the text is not a module of function types alone or an allocation fails.
  types(bytes) { return this.#make(bytes, ({ wat_page_types }) => wat_page_types()); }

  #make(bytes, isMade) {
    if (!this.isServed) throw new Error('this module only reads tokens');
    this.#exports ??= new WebAssembly.Instance(this.#module).exports;
    const { memory, wat_page_room } = this.#exports;
    const room = wat_page_room(bytes.length) >>> 0;
    if (room === 0) return null;
    new Uint8Array(memory.buffer, room, bytes.length).set(bytes);
    return isMade(this.#exports) ? this.#answer() : null;
  }

  #answer() {
    const { memory, wat_page_answer, wat_page_answer_len } = this.#exports;
    return new Uint8Array(memory.buffer, wat_page_answer() >>> 0, wat_page_answer_len() >>> 0).slice();
  }
}
