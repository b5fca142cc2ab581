// Significant tokens: all except whitespace, comments, and groups `(@name ..)` of unregistered names.
import { decoder } from './wat-lex/lexer.js';
import { nameOf } from './names.js';
import { ANNOTATION, AT_SIGN, OPENING } from './wat-lex/tokens.js';

const SHOWN = {};

// Classifies a parenthesis that `@` follows directly. Returns `SHOWN` if it is visible, `after`, the index of the token after its group, if the group
// is skipped, or `wrong`, an error with its offset. `after` is infinite if the text's lexical error comes before the end of the group.
function skip(tokens, bytes, names, i) {
  const annotation = i + 1;
  if (annotation === tokens.count) return { after: Infinity };
  if (tokens.code(annotation) !== ANNOTATION) return SHOWN;
  const offset = tokens.start(annotation);
  const name = nameOf(decoder.decode(bytes.subarray(offset, tokens.end(annotation))));
  if (name === null) return { wrong: { what: 'malformed UTF-8 encoding of string-based id', offset } };
  if (name === '') return { wrong: { what: 'empty annotation id', offset } };
  if (names.has(name)) return SHOWN;
  const last = tokens.partner(i);
  if (last < 0 && tokens.isWhole) return { wrong: { what: 'unclosed annotation', offset } };
  return { after: last < 0 ? Infinity : last + 1 };
}

// Returns the indices of the significant tokens, at most `most`, and the error of an annotation that ends them before the end of the text.
export function whatCounts(tokens, bytes, names, most = tokens.count) {
  const numbers = new Uint32Array(Math.min(most, tokens.count));
  let count = 0, error = null;
  for (let i = 0; i < tokens.count && count < most && !error; i += 1) {
    if (tokens.isBlank(i)) continue;
    numbers[count] = i;
    count += 1;
    if (tokens.code(i) !== OPENING || bytes[tokens.end(i)] !== AT_SIGN) continue;
    const { after = i + 1, wrong = null } = skip(tokens, bytes, names, i);
    if (after > i + 1 || wrong) count -= 1;
    i = after - 1;
    error = wrong;
  }
  return { numbers: numbers.subarray(0, count), wrong: error };
}
