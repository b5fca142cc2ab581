// The names of identifiers and annotations. The lexer has accepted their tokens, so each escape is valid.
const LETTERS = { t: 9, n: 10, r: 13, '"': 34, "'": 39, '\\': 92 };
const strict = new TextDecoder('utf-8', { fatal: true, ignoreBOM: true });

// Returns the value of the escape at the backslash at an offset, a byte or a character, and the offset after the escape.
function escapeAt(elements, at) {
  const letter = elements[at + 1];
  if (letter in LETTERS) return { byte: LETTERS[letter], end: at + 2 };
  if (letter !== 'u') return { byte: parseInt(elements.slice(at + 1, at + 3), 16), end: at + 3 };
  const close = elements.indexOf('}', at);
  const digits = elements.slice(at + '\\u{'.length, close).replaceAll('_', '');
  return { character: String.fromCodePoint(parseInt(digits, 16)), end: close + 1 };
}

// Returns the bytes of a string's elements.
function unescaped(elements) {
  const encoder = new TextEncoder();
  // A UTF-16 code unit has at most three bytes, and an escape has fewer bytes than code units.
  const bytes = new Uint8Array(3 * elements.length);
  let length = 0, at = 0;
  const put = (text) => { length += encoder.encodeInto(text, bytes.subarray(length)).written; };
  for (let next = elements.indexOf('\\'); next >= 0; next = elements.indexOf('\\', at)) {
    put(elements.slice(at, next));
    const { byte, character, end } = escapeAt(elements, next);
    if (byte === undefined) put(character); else bytes[length++] = byte;
    at = end;
  }
  put(elements.slice(at));
  return bytes.subarray(0, length);
}

// Returns the name in a token such as `$a` or `@"a"`, which may be empty, or null if the name is not UTF-8.
export function nameOf(word) {
  if (word[1] !== '"') return word.slice(1);
  const bytes = unescaped(word.slice(2, -1));
  try {
    return strict.decode(bytes);
  } catch (error) {
    if (error instanceof TypeError) return null;
    throw error;
  }
}
