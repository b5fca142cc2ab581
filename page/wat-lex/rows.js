// The rows of a text's tokens: each token's end and the code of its kind. Ends before a gap are counted from the text's start, and ends after it from
// the text's end, so a change of the text at the gap leaves all rows as they are.

// Returns the index of the first of `count` sorted numbers that is at least `least`, or `count`. `numberAt` returns the number at an index.
export function firstFrom(count, numberAt, least) {
  let low = 0, high = count;
  while (low < high) {
    const middle = (low + high) >>> 1;
    if (numberAt(middle) < least) low = middle + 1; else high = middle;
  }
  return low;
}

export class Rows {
  // The number of rows before the gap, and the index of the first row after it.
  front = 0;
  #back;

  // Creates rows over `numbers`, two numbers a row, all of them in the gap, for a text of `length` bytes.
  constructor(numbers, length) {
    this.look(numbers, length);
    this.forgetBack();
  }

  // Sets the memory of the rows, and the length of the text in bytes.
  look(numbers, length) { Object.assign(this, { numbers, length }); }

  get #capacity() { return this.numbers.length / 2; }
  get count() { return this.front + this.#capacity - this.#back; }
  get gap() { return this.#back - this.front; }
  get hasBack() { return this.#back < this.#capacity; }

  end(i) { return i < this.front ? this.numbers[2 * i] : this.length - this.numbers[2 * (i + this.gap)]; }
  code(i) { return this.numbers[2 * (i < this.front ? i : i + this.gap) + 1]; }

  // The end of the last row before the gap.
  get frontEnd() { return this.front > 0 ? this.numbers[2 * this.front - 2] : 0; }

  // Moves the gap between the rows before `first` and the rows from `next` on, which must not be less. Drops the rows between.
  open(first, next) {
    if (next < this.front) {
      const moved = this.front - next;
      this.#back -= moved;
      this.#move(next, this.#back, moved);
      this.front = first;
      return;
    }
    const from = this.#back, moved = Math.max(0, first - this.front);
    this.#back += next - this.front;
    this.#move(from, this.front, moved);
    this.front = first;
  }

  // Moves rows across the gap, and converts their ends.
  #move(from, to, count) {
    const { numbers, length } = this;
    numbers.copyWithin(2 * to, 2 * from, 2 * (from + count));
    for (let i = to; i < to + count; i += 1) numbers[2 * i] = length - numbers[2 * i];
  }

  // Adds `by` to the ends of the `count` rows written at the start of the gap.
  shift(count, by) {
    for (let i = this.front; i < this.front + count; i += 1) this.numbers[2 * i] += by;
  }

  // Appends rows to those before the gap.
  put(given) {
    this.numbers.set(given, 2 * this.front);
    this.front += given.length / 2;
  }

  // Drops the first row after the gap, and returns its end, counted from the text's end.
  drop() {
    this.#back += 1;
    return this.numbers[2 * this.#back - 2];
  }

  forgetBack() { this.#back = this.#capacity; }
}
