// Values of WebAssembly as text: arguments that are typed, and results.
const BITS = { i32: 32n, i64: 64n };
const NUMBERS = ['i32', 'i64', 'f32', 'f64'];
const INTEGER = /^([+-]?)(0x[\da-f]+|\d+)$/i;
const SPECIAL = { inf: Infinity, '+inf': Infinity, '-inf': -Infinity, nan: NaN };

// Returns `true` if JavaScript can call a function: all parameters are numbers, and no result is a vector.
export const isCallable = ({ params, results }) => params.every((type) => NUMBERS.includes(type)) && !results.includes('v128');

// Returns an integer of a number of bits, signed or unsigned, or null if the text is not one.
function integerOf(bits, text) {
  const [, sign, digits] = INTEGER.exec(text) ?? [];
  if (digits === undefined) return null;
  const value = sign === '-' ? -BigInt(digits) : BigInt(digits);
  return value >= -(1n << (bits - 1n)) && value < 1n << bits ? BigInt.asIntN(Number(bits), value) : null;
}

function floatOf(text) {
  if (text in SPECIAL) return SPECIAL[text];
  const value = Number(text);
  return text === '' || Number.isNaN(value) ? null : value;
}

// Returns the argument of a number type that a text represents, or null. Integers are decimal or hexadecimal, signed or unsigned.
export function argumentOf(type, text) {
  const given = text.trim().replaceAll('_', '').toLowerCase();
  if (!(type in BITS)) return floatOf(given);
  const value = integerOf(BITS[type], given);
  return value === null || type === 'i64' ? value : Number(value);
}

// Formats a value that JavaScript received from WebAssembly.
export function printedValue(value) {
  if (typeof value === 'function') return 'a function';
  if (typeof value === 'object' && value !== null) return 'a reference';
  if (Object.is(value, -0)) return '-0';
  return String(value).replace('Infinity', 'inf').replace('NaN', 'nan');
}
