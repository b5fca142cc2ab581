/** The kinds of tokens. */
export type Kind =
  | 'LineComment' | 'BlockComment' | 'Whitespace' | 'LParen' | 'RParen' | 'String' | 'Id' | 'Keyword' | 'Annotation' | 'Reserved' | 'Integer' | 'Float';

/** The kinds by the module's codes, which begin at 1; the last four are kinds of floats. */
export declare const KINDS: readonly (Kind | null)[];

/** A token. Offsets are in UTF-16 code units, like those of strings. */
export interface Token {
  kind: Kind;
  start: number;
  end: number;
}

/** The lexical error that ends the tokens before the end of the text. */
export interface Fault {
  /** Offset in UTF-16 code units. */
  start: number;
  /** Index of the line, counted from 0. */
  line: number;
  /** Offset in the line, in UTF-16 code units, counted from 0. */
  column: number;
  message: string;
  /** The error as the program prints it: message, location, and the line with a marker. */
  printed: string;
}

/**
 * The error of the compiler in a text that is not a module: a lexical error, or a syntax error at the token that no rule accepts. With `validate`, also
 * the error in the first field that is not valid: in a function at the instruction, in others at an expression or at the keyword of the field.
 */
export declare class CompileError extends Error {
  readonly name: 'CompileError';
  /** Offset in UTF-16 code units. */
  readonly offset: number;
  /** Index of the line, counted from 0. */
  readonly line: number;
  /** Offset in the line, in UTF-16 code units, counted from 0. */
  readonly column: number;
  /** The error as the program prints it: message, location, and the line with a marker. */
  readonly printed: string;
}

/** The settings of the lexer, which are off by default. */
export interface Flags {
  /** Allows U+202A, U+202B, U+202D, U+202E, U+2066 to U+2069 and U+206C, which change how a text is displayed, in comments and strings. */
  allowConfusingUnicode?: boolean;
  /** Rejects two consecutive underscores inside `\u{..}`. */
  strictUnderscores?: boolean;
}

/** The options of the compiler, which are off by default. */
export interface CompileOptions {
  /** Rejects modules that are not valid by chapter 3 of the standard, WebAssembly 2.0. */
  validate?: boolean;
}

/**
 * A source text that is edited. Its tokens, which include whitespace and comments, cover the text from 0 to its end or its error without gaps. The
 * methods throw a `TypeError` for an argument of another type, and a `RangeError` for a number that is not an integer.
 */
export declare class Document implements Iterable<Token> {
  /** Opens a text over a new instance of the module. Throws a `RangeError` if the text is too long. */
  constructor(module: WebAssembly.Module, text?: string, flags?: Flags);
  /** The current text, with U+FFFD for each lone surrogate. */
  readonly text: string;
  /** The number of tokens. */
  readonly count: number;
  /** All tokens, in a new array. */
  readonly tokens: Token[];
  /** The lexical error that ends the tokens, or null. */
  readonly fault: Fault | null;
  /** Returns the kind of a token. Throws a `RangeError` if there is no token `i`. */
  kind(i: number): Kind;
  /** Returns the offset at which a token begins. Throws a `RangeError` if there is no token `i`. */
  start(i: number): number;
  /** Returns the offset at which a token ends. Throws a `RangeError` if there is no token `i`. */
  end(i: number): number;
  /** Returns a token. Throws a `RangeError` if there is no token `i`. */
  token(i: number): Token;
  /**
   * Returns the index of the token that contains an offset, or `count` after the last. Throws a `RangeError` if the offset is past the end of the text
   * or inside a character.
   */
  at(place: number): number;
  /**
   * Replaces the text from `start` to `end`, and lexes again only what the change affects. A lone surrogate becomes a character once a change puts the
   * other half of its pair next to it. Throws a `RangeError` if `end` is less than `start`, if an offset is past the end of the text or inside a
   * character, or if the text becomes too long. The document is unchanged if the method throws.
   */
  change(start: number, end: number, piece: string): void;
  /** Replaces the text and the flags. Throws a `RangeError` if the text is too long. */
  replace(text: string, flags?: Flags): void;
  /** Returns the formatted text, or null if the text has a lexical error or memory runs out. */
  format(): string | null;
  /**
   * Returns the binary module, which is not validated by default. Throws a `CompileError` if the text is not a module of WebAssembly 2.0 by the
   * standard's rules, whatever the flags, or with `validate` if the module is not valid, and a `RangeError` if memory runs out.
   */
  compile(options?: CompileOptions): Uint8Array;
  /** Returns the binary module, or null if the text is not a module of function types alone or memory runs out. */
  types(): Uint8Array | null;
  /** Iterates over all tokens. */
  [Symbol.iterator](): Iterator<Token>;
}

/** A lexer over a compiled module. */
export declare class WatLex {
  /** Creates a lexer over a module, such as the package's `wat_lex.wasm`. */
  constructor(module: WebAssembly.Module);
  /** Opens a text for editing. Each document has its own memory, of about 25 MB, or of 11 times the text if that is more. */
  open(text?: string, flags?: Flags): Document;
  /** Returns the tokens of a text, and its lexical error or null. */
  lex(text: string, flags?: Flags): { tokens: Token[]; fault: Fault | null };
  /** Returns the formatted text, or null if the text has a lexical error or memory runs out. */
  format(text: string): string | null;
  /**
   * Returns the binary module, which is not validated by default. Throws a `CompileError` if the text is not a module of WebAssembly 2.0, or with
   * `validate` if the module is not valid, and a `RangeError` if memory runs out.
   */
  compile(text: string, options?: CompileOptions): Uint8Array;
  /** Returns the binary module, or null if the text is not a module of function types alone or memory runs out. */
  types(text: string): Uint8Array | null;
}

/** Loads the lexer, from the package's own module by default. */
export declare function load(source?: URL | string | BufferSource): Promise<WatLex>;
/** Loads the lexer synchronously. Available in Node only. */
export declare function loadSync(): WatLex;
