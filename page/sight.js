// A scrolling box of which only the items in sight are drawn, however many there are. `draw` returns the elements of the items from one index to
// another, which become the children of `seen`. If `seen` is inside the box it scrolls with it; otherwise it is next to the box and is moved. The
// box's position and size are cached, since a query would make the browser compute the page's layout at once.
export class Sight {
  static HEIGHT = 20;
  static MOST = 8_000_000;

  constructor(boxes, seen, draw) {
    Object.assign(this, { seen, draw, count: 0, top: 0, left: 0 });
    const measure = new ResizeObserver(() => {
      this.measure();
      this.redraw();
    });
    for (const box of boxes) {
      box.addEventListener('scroll', () => this.follow(box));
      measure.observe(box);
    }
    this.use(boxes[0]);
  }

  // Switches to another box. The previous box scrolls back to its start, since it may contain the items of the new one.
  use(box) {
    if (box === this.box) return;
    this.box?.scrollTo(0, 0);
    this.box = box;
    this.all = box.querySelector('.all');
    this.isBeside = !box.contains(this.seen);
    this.measure();
  }

  measure() {
    this.height = this.box.clientHeight;
    this.width = this.box.clientWidth;
    this.top = this.box.scrollTop;
    this.left = this.box.scrollLeft;
  }

  // Scrolls back to the first item.
  restart() {
    if (this.top > 0 || this.left > 0) this.box.scrollTo(0, 0);
    this.top = 0;
    this.left = 0;
  }

  follow(box) {
    if (box !== this.box || (box.scrollTop === this.top && box.scrollLeft === this.left)) return;
    this.top = box.scrollTop;
    this.left = box.scrollLeft;
    this.redraw();
  }

  // The distance that the items move for each pixel of the box, in pixels.
  get scale() {
    const free = Math.min(this.count * Sight.HEIGHT, Sight.MOST) - this.height;
    return free > 0 ? Math.max(1, (this.count * Sight.HEIGHT - this.height) / free) : 1;
  }

  set(count) {
    this.count = count;
    if (!this.all) return;
    const height = Math.min(count * Sight.HEIGHT, Sight.MOST);
    this.all.style.height = `${height}px`;
    this.top = Math.max(0, Math.min(this.top, height - this.height));
  }

  redraw() {
    if (this.count === 0) {
      this.seen.replaceChildren();
      return;
    }
    const top = this.top * this.scale;
    const first = Math.max(0, Math.floor(top / Sight.HEIGHT) - 2);
    const last = Math.min(this.count, Math.ceil((top + this.height) / Sight.HEIGHT) + 2);
    const offset = first * Sight.HEIGHT - top;
    this.seen.style.top = `${this.isBeside ? offset : this.top + offset}px`;
    this.seen.style.left = this.isBeside ? `${-this.left}px` : '0';
    this.#replace(this.draw(first, last, offset));
  }

  // Replaces the drawn items. Elements that were drawn before keep their position in the document.
  #replace(items) {
    const isDrawn = new Set(items);
    for (const it of [...this.seen.childNodes]) if (!isDrawn.has(it)) it.remove();
    let next = this.seen.firstChild;
    for (const it of items) {
      if (it === next) next = it.nextSibling; else this.seen.insertBefore(it, next);
    }
  }

  // Returns the scroll position of the box from which an item is in sight.
  #topFor(item) {
    const top = this.top * this.scale;
    const low = item * Sight.HEIGHT, high = low + Sight.HEIGHT;
    if (low >= top && high <= top + this.height) return this.top;
    return low < top ? Math.floor(low / this.scale) : Math.ceil((high - this.height) / this.scale) + 1;
  }

  // Scrolls until an item is in sight.
  reveal(item) {
    const top = this.#topFor(item);
    if (top === this.top) return;
    this.box.scrollTop = top;
    this.top = this.box.scrollTop;
  }

  // Draws an item in sight now, and scrolls the box in the next frame. Scrolling at once would make the browser compute the layout of the whole page,
  // including a text area of a megabyte.
  revealSoon(item) {
    const top = this.#topFor(item);
    if (top === this.top) return;
    this.top = top;
    requestAnimationFrame(() => {
      if (this.top !== top) return;
      this.box.scrollTop = top;
      this.follow(this.box);
    });
  }

  // Scrolls sideways until the pixel `x` of a line is in sight.
  revealAcross(x) {
    if (x >= this.left + 16 && x <= this.left + this.width - 16) return;
    this.box.scrollLeft = Math.max(0, x - this.width / 2);
    this.left = this.box.scrollLeft;
  }
}
