// A worker that lexes parts of a text for the page.
import { Lexer, rowsOfPart } from './wat-lex/lexer.js';

let lexer;

onmessage = ({ data: { module, part, from, flags } }) => {
  if (module) {
    lexer = new Lexer(new WebAssembly.Instance(module));
  } else {
    const rows = rowsOfPart(lexer, part, from, flags);
    postMessage(rows, [rows.buffer]);
  }
};
