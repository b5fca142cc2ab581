// The horizontal positions of a line's characters, in pixels from its start, for lines that are too long to be drawn whole. The font has a fixed
// width; a character that it lacks is measured once.
const TAB = 9;
const STOPS = 4;

// Returns the code point that begins at a byte, and the offset of the next one.
function characterAt(bytes, at) {
  const first = bytes[at];
  if (first < 0x80) return [first, at + 1];
  const more = first < 0xe0 ? 1 : first < 0xf0 ? 2 : 3;
  let code = first & (0x3f >> more);
  for (let i = 1; i <= more; i += 1) code = (code << 6) | (bytes[at + i] & 0x3f);
  return [code, at + 1 + more];
}

export class Columns {
  constructor({ fontSize, fontFamily }) {
    this.context = document.createElement('canvas').getContext('2d');
    this.context.font = `${fontSize} ${fontFamily}`;
    this.width = this.context.measureText('0'.repeat(1000)).width / 1000;
    this.others = new Map();
  }

  widthOf(code) {
    if (code >= 0x20 && code < 0x7f) return this.width;
    if (!this.others.has(code)) this.others.set(code, this.context.measureText(String.fromCodePoint(code)).width);
    return this.others.get(code);
  }

  // Returns the position after a character at `x`. A tab is at least half a character wide.
  after(x, code) {
    const stop = STOPS * this.width;
    return code === TAB ? Math.ceil((x + this.width / 2) / stop) * stop : x + this.widthOf(code);
  }

  // Returns the offset of the first character at `wanted` or to the right of it, or the end of the line, and its position. The character at `from` is
  // at `x`.
  reach(bytes, from, to, wanted, x = 0) {
    let at = from, here = x;
    while (at < to && here < wanted) {
      const [code, next] = characterAt(bytes, at);
      here = this.after(here, code);
      at = next;
    }
    return { at, x: here };
  }

  // Returns the range of a line's bytes between two positions, and the position of its first byte as a tab stop and the distance from it.
  part(bytes, from, to, left, right) {
    const first = this.reach(bytes, from, to, left);
    const beyond = first.x % (STOPS * this.width);
    return { from: first.at, to: this.reach(bytes, first.at, to, right, first.x).at, stop: first.x - beyond, beyond };
  }
}
