// A source text in a link: its bytes, compressed, in the fragment, which browsers do not send to servers.
const LONGEST_FRAGMENT = 100_000;
const LONGEST_TEXT = 1 << 24;

async function piped(bytes, stream, most = Infinity) {
  const parts = [];
  let length = 0;
  for await (const part of new Blob([bytes]).stream().pipeThrough(stream)) {
    length += part.length;
    if (length > most) throw new RangeError('the text is too long');
    parts.push(part);
  }
  return new Uint8Array(await new Blob(parts).arrayBuffer());
}

const toWord = (bytes) => btoa(Array.from(bytes, (byte) => String.fromCharCode(byte)).join('')).replaceAll('+', '-').replaceAll('/', '_').replaceAll('=', '');
const fromWord = (word) => Uint8Array.from(atob(word.replaceAll('-', '+').replaceAll('_', '/')), (it) => it.charCodeAt(0));

// Returns the fragment of a text and its settings, or null if it would be too long.
export async function fragmentOf({ bytes, allow, strict, counts, names }) {
  const said = new URLSearchParams({ text: toWord(await piped(bytes, new CompressionStream('deflate-raw'))) });
  for (const [name, isSet] of Object.entries({ allow, strict, counts })) if (isSet) said.set(name, '1');
  if (names) said.set('names', names);
  const fragment = said.toString();
  return fragment.length > LONGEST_FRAGMENT ? null : fragment;
}

// Returns the text and the settings of a fragment, or null if it has no text. Rejects with a `RangeError` if the text is too long.
export async function givenBy(fragment) {
  const said = new URLSearchParams(fragment.replace(/^#/, ''));
  if (!said.has('text')) return null;
  const bytes = await piped(fromWord(said.get('text')), new DecompressionStream('deflate-raw'), LONGEST_TEXT);
  return { bytes, allow: said.has('allow'), strict: said.has('strict'), counts: said.has('counts'), names: said.get('names') ?? '' };
}
