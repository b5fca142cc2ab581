// Tests the parts of the page that need a browser, in node, with substitutes for its elements, canvas and workers: scrolling boxes, columns, workers,
// modules that run, and links. Takes a second; browser.mjs tests the whole page.
// usage: node faked.mjs, once build.sh has made the module
import assert from 'node:assert/strict';
import { readFileSync } from 'node:fs';
import { deflateRawSync } from 'node:zlib';
import { Lines } from './wat-lex/lines.js';

const module = new WebAssembly.Module(readFileSync(new URL('out/wat-lex/wat_lex.wasm', import.meta.url)));
const encoder = new TextEncoder();

// ---- substitutes

// An element with children, which counts the changes of their order.
class Element {
  constructor(name = '') { Object.assign(this, { name, style: {}, childNodes: [], parent: null, moves: 0 }); }

  get firstChild() { return this.childNodes[0] ?? null; }
  get nextSibling() { return this.parent.childNodes[this.parent.childNodes.indexOf(this) + 1] ?? null; }

  remove() {
    this.parent.childNodes.splice(this.parent.childNodes.indexOf(this), 1);
    this.parent = null;
  }

  replaceChildren() { this.childNodes = []; }

  insertBefore(child, next) {
    this.moves += 1;
    if (child.parent) child.remove();
    child.parent = this;
    this.childNodes.splice(next ? this.childNodes.indexOf(next) : this.childNodes.length, 0, child);
  }
}

// A box that scrolls, of a hundred by two hundred pixels. It records how often it was scrolled.
class Box {
  constructor(seen = null) {
    Object.assign(this, { clientHeight: 100, clientWidth: 200, all: new Element(), seen, scrolled: 0, listeners: {}, left: 0, top: 0 });
  }

  get scrollTop() { return this.top; }
  set scrollTop(to) { this.scrollTo(this.left, to); }
  get scrollLeft() { return this.left; }
  set scrollLeft(to) { this.scrollTo(to, this.top); }

  // Scrolls to at most 10,000 pixels, without an event.
  scrollTo(left, top) {
    this.scrolled += 1;
    this.left = Math.min(left, 10_000);
    this.top = Math.min(top, 9_000_000);
  }

  querySelector(selector) { return selector === '.all' ? this.all : null; }
  contains(element) { return element === this.seen; }
  addEventListener(name, call) { this.listeners[name] = call; }
}

const observed = [], frames = [];
globalThis.ResizeObserver = class {
  constructor(call) { this.call = call; }
  observe(box) { observed.push({ box, call: this.call }); }
};
globalThis.requestAnimationFrame = (call) => frames.push(call);

const measured = [];
const WIDTHS = { '\u6f22': 16, '\u00e9': 9, '\u{1f600}': 21, '\u0001': 3, '\x7f': 5 };
const context = {
  measureText(text) {
    measured.push(text);
    return { width: [...text].reduce((sum, it) => sum + (WIDTHS[it] ?? 8), 0) };
  },
};
globalThis.document = { createElement: (name) => ({ getContext: (kind) => (name === 'canvas' && kind === '2d' ? context : null) }) };

// ---- scrolling boxes

const { Sight } = await import('./sight.js');

// Returns a view of 1,000 items over a box, and what was drawn.
function viewOf({ count = 1000, seen = new Element(), boxes = [new Box()] } = {}) {
  const drawn = [], items = new Map();
  const view = new Sight(boxes, seen, (first, last, offset) => {
    drawn.push([first, last, offset]);
    return Array.from({ length: last - first }, (_, i) => items.get(first + i) ?? items.set(first + i, new Element(first + i)).get(first + i));
  });
  view.set(count);
  return { view, seen, boxes, drawn, items, names: () => seen.childNodes.map((it) => it.name) };
}

function sizes() {
  // Nothing is drawn before the number of items is set.
  const drawn = [], fresh = new Sight([new Box()], new Element(), (...range) => drawn.push(range));
  observed.at(-1).call();
  assert.deepEqual([fresh.count, drawn], [0, []]);
  const { view, boxes: [box] } = viewOf();
  assert.deepEqual([view.count, view.height, view.width, view.top, view.left, view.scale, box.all.style.height, view.isBeside], [1000, 100, 200, 0, 0, 1, '20000px', true]);
  // The items' scale, for a box that is as high as it may be, and for few items.
  for (const [count, scale, height] of [[400_000, 1, 8_000_000], [400_001, (8_000_020 - 100) / 7_999_900, 8_000_000], [800_000, (16_000_000 - 100) / 7_999_900, 8_000_000], [5, 1, 100], [6, 1, 120], [0, 1, 0]]) {
    view.set(count);
    assert.deepEqual([view.scale, box.all.style.height], [scale, `${height}px`], `${count}`);
  }
  Object.assign(view, { top: 1950 });
  for (const [count, top] of [[102, 1940], [50, 900], [5, 0], [2, 0]]) {
    view.set(count);
    assert.equal(view.top, top);
  }
  Object.assign(view, { top: 15 });
  view.set(1000);
  assert.equal(view.top, 15);
}

function drawing() {
  const { view, seen, boxes: [box], drawn, names } = viewOf();
  for (const [top, range] of [[0, [0, 7, 0]], [1, [0, 8, -1]], [20, [0, 8, -20]], [59, [0, 10, -59]], [60, [1, 10, -40]], [61, [1, 11, -41]], [19_900, [993, 1000, -40]]]) {
    view.top = top;
    view.left = 7;
    view.redraw();
    assert.deepEqual([drawn.at(-1), seen.style], [range, { top: `${range[2]}px`, left: '-7px' }], `${top}`);
    assert.deepEqual(names(), Array.from({ length: range[1] - range[0] }, (_, i) => range[0] + i));
  }
  // The elements that are drawn already are not moved.
  view.top = 19_900 - 40;
  seen.moves = 0;
  view.redraw();
  assert.deepEqual([seen.moves, names()[0]], [2, 991]);
  for (const count of [1, 0]) {
    view.set(count);
    view.redraw();
    assert.deepEqual(names(), [0].slice(0, count));
  }
  assert.deepEqual(drawn.at(-1), [0, 1, 0]);
  assert.equal(box.scrolled, 0);
  const inside = new Element(), around = viewOf({ seen: inside, boxes: [new Box(inside)], count: 800_000 });
  around.view.top = 1000;
  around.view.redraw();
  const top = 1000 * around.view.scale, first = Math.floor(top / 20) - 2;
  assert.deepEqual([around.view.isBeside, inside.style, around.drawn.at(-1)], [false, { top: `${1000 + first * 20 - top}px`, left: '0' }, [first, Math.ceil((top + 100) / 20) + 2, first * 20 - top]]);
}

function boxesOfViews() {
  const first = new Box(), second = new Box();
  const { view, drawn } = viewOf({ boxes: [first, second] });
  Object.assign(second, { clientHeight: 60, clientWidth: 70, top: 40, left: 3 });
  assert.deepEqual(observed.slice(-2).map((it) => it.box), [first, second]);
  // An event of the other box, and one without a change, draw nothing.
  first.left = 5;
  for (const [box, count] of [[second, 0], [first, 1], [first, 1]]) {
    box.listeners.scroll();
    assert.equal(drawn.length, count);
  }
  first.top = 33;
  first.listeners.scroll();
  assert.deepEqual([view.top, view.left, drawn.length], [33, 5, 2]);
  first.clientHeight = 500;
  observed.at(-2).call();
  assert.deepEqual([view.height, drawn.length, drawn.at(-1)[1]], [500, 3, 29]);
  view.use(first);
  assert.equal(first.scrolled, 0);
  view.use(second);
  assert.deepEqual([first.top, first.left, first.scrolled, view.height, view.width, view.top, view.left, view.all === second.all], [0, 0, 1, 60, 70, 40, 3, true]);
  view.restart();
  assert.deepEqual([view.top, view.left, second.top, second.left, second.scrolled], [0, 0, 0, 0, 1]);
  view.restart();
  assert.equal(second.scrolled, 1);
  for (const [top, left] of [[1, 0], [0, 1]]) {
    Object.assign(view, { top, left });
    view.restart();
  }
  assert.equal(second.scrolled, 3);
}

function reveals() {
  const { view, boxes: [box] } = viewOf();
  // The scroll position at first, the item to reveal, the position then, and whether the box was scrolled.
  for (const [top, item, then] of [[0, 0, 0], [0, 4, 0], [0, 5, 21], [5, 0, 0], [20, 1, 20], [21, 1, 20], [20, 5, 20], [19, 5, 21], [0, 999, 19_901]]) {
    Object.assign(box, { top, scrolled: 0 });
    view.measure();
    view.reveal(item);
    assert.deepEqual([view.top, box.top, box.scrolled], [then, then, top === then ? 0 : 1], `${top} ${item}`);
    Object.assign(box, { top, scrolled: 0 });
    view.measure();
    frames.length = 0;
    view.revealSoon(item);
    assert.deepEqual([view.top, box.top, frames.length], [then, top, top === then ? 0 : 1], `${top} ${item} soon`);
    for (const frame of frames) frame();
    assert.deepEqual([view.top, box.top], [then, then]);
  }
  // A later scroll cancels the frame.
  Object.assign(box, { top: 0 });
  view.measure();
  view.revealSoon(50);
  view.revealSoon(60);
  frames.at(-2)();
  assert.equal(box.top, 0);
  frames.at(-1)();
  assert.equal(box.top, 1121);
  view.revealSoon(999_999_999);
  frames.at(-1)();
  assert.deepEqual([box.top, view.top], [9_000_000, 9_000_000]);
  const long = viewOf({ count: 800_000 }), { scale } = long.view;
  long.view.reveal(400_000);
  assert.equal(long.view.top, Math.ceil((8_000_020 - 100) / scale) + 1);
  long.view.reveal(100);
  assert.equal(long.view.top, Math.floor(2000 / scale));
}

function revealsAcross() {
  const { view, boxes: [box] } = viewOf();
  for (const [left, x, then] of [[0, 16, 0], [0, 15, 0], [50, 66, 50], [50, 65, 0], [50, 234, 50], [50, 235, 135], [0, 5000, 4900], [0, 50_000, 10_000]]) {
    Object.assign(box, { left, top: 3 });
    view.measure();
    box.scrolled = 0;
    view.revealAcross(x);
    assert.deepEqual([view.left, box.left, box.top], [then, then, 3], `${left} ${x}`);
    if (x >= left + 16 && then === left) assert.equal(box.scrolled, 0);
  }
}

// ---- columns

const { Columns } = await import('./columns.js');

function columns() {
  const it = new Columns({ fontSize: '13px', fontFamily: 'mono' });
  assert.deepEqual([it.width, context.font, measured.length, measured[0].length], [8, '13px mono', 1, 1000]);
  const text = 'a\u{1f600}\u6f22\t\u00e9~\x7f\x01 \t\tz';
  const bytes = encoder.encode(text);
  const ends = [8, 29, 45, 64, 73, 81, 86, 89, 97, 128, 160, 168];
  const offsets = [1, 5, 8, 9, 11, 12, 13, 14, 15, 16, 17, 18];
  offsets.forEach((at, i) => {
    assert.deepEqual(it.reach(bytes, 0, at, Infinity), { at, x: ends[i] });
    assert.deepEqual(it.reach(bytes, 0, bytes.length, ends[i]), { at, x: ends[i] });
    assert.deepEqual(it.reach(bytes, 0, bytes.length, ends[i] - 1), { at, x: ends[i] });
    if (i > 0) assert.deepEqual(it.reach(bytes, offsets[i - 1], bytes.length, ends[i], ends[i - 1]), { at, x: ends[i] });
  });
  assert.deepEqual([it.reach(bytes, 1, bytes.length, 0), it.reach(bytes, 0, bytes.length, -5)], [{ at: 1, x: 0 }, { at: 0, x: 0 }]);
  assert.deepEqual(measured.slice(1).sort(), ['\u0001', '\x7f', '\u00e9', '\u6f22', '\u{1f600}'].sort());
  assert.deepEqual(it.reach(encoder.encode('\u0800\ud7ff\u07ff\u0080'), 0, 10, Infinity), { at: 10, x: 32 });
  // A tab within half a character of its stop goes on to the next one.
  for (const [x, after] of [[0, 32], [27, 32], [28, 32], [29, 64], [32, 64]]) assert.equal(it.after(x, 9), after);
  assert.deepEqual([0x1f, 0x20, 0x7e, 0x7f, 0xe9].map((code) => it.widthOf(code)), [8, 8, 8, 5, 9]);
  assert.deepEqual(it.part(bytes, 0, bytes.length, 40, 90), { from: 8, to: 15, stop: 32, beyond: 13 });
  assert.deepEqual(it.part(bytes, 0, bytes.length, -10, 30), { from: 0, to: 8, stop: 0, beyond: 0 });
  assert.deepEqual(it.part(bytes, 0, bytes.length, 128, 9999), { from: 16, to: 18, stop: 128, beyond: 0 });
}

// ---- workers

const { Ahead } = await import('./ahead.js');
const workers = [];
globalThis.Worker = class {
  constructor(name, options) {
    Object.assign(this, { name, options, posted: [], isTerminated: false });
    workers.push(this);
  }
  postMessage(data, moved) { this.posted.push({ ...data, moved }); }
  terminate() { this.isTerminated = true; }
};

// A reader of which only the calls are recorded.
const readerOf = (length, place = 0) => {
  const bytes = new Uint8Array(length).fill(97);
  return { bytes, place, ending: null, lines: new Lines(bytes), expected: [], given: [], expect(...it) { this.expected.push(it); }, give(...it) { this.given.push(it); } };
};

function startOf(processors) {
  workers.length = 0;
  Object.defineProperty(globalThis, 'navigator', { value: { hardwareConcurrency: processors }, configurable: true });
  return new Ahead(module);
}

const MEGABYTE = 1 << 20, STRETCH = 1 << 18;

function workersAhead() {
  for (const [processors, count] of [[undefined, 0], [1, 0], [2, 1], [4, 3], [5, 4], [16, 4]]) {
    const ahead = startOf(processors);
    ahead.begin(readerOf(2 * MEGABYTE - 1), {});
    assert.equal(workers.length, 0);
    ahead.begin(readerOf(2 * MEGABYTE), { strict: true });
    assert.equal(workers.length, count, `${processors} processors`);
    for (const it of workers) assert.deepEqual([it.name, it.options, it.posted[0].module], ['worker.js', { type: 'module' }, module]);
  }
  const ahead = startOf(3), reader = readerOf(6 * MEGABYTE + 100, 10), flags = { strict: true };
  ahead.begin(reader, flags);
  const stretch = (i) => [MEGABYTE + 10 + i * STRETCH, Math.min(reader.bytes.length, MEGABYTE + 10 + (i + 1) * STRETCH)];
  const all = (count) => Array.from({ length: count }, (_, i) => stretch(i));
  assert.deepEqual([reader.expected, workers.map((it) => it.posted.length)], [all(8), [5, 5]]);
  assert.deepEqual(workers.map((it) => it.posted.slice(1).map(({ from }) => from)), [[0, 2, 4, 6], [1, 3, 5, 7]].map((them) => them.map((i) => stretch(i)[0])));
  const { part, moved, flags: sent } = workers[0].posted[1];
  assert.deepEqual([part.length, moved, sent], [STRETCH, [part.buffer], flags]);
  // Rows are delivered for the first stretch of a worker, which gets another one.
  const rows = Uint32Array.of(1, 8);
  workers[1].onmessage({ data: rows });
  assert.deepEqual([reader.given, reader.expected.length, workers[1].posted.at(-1).from], [[[stretch(1)[0], rows]], 9, stretch(8)[0]]);
  // The reader has gone past the next stretch.
  reader.place = stretch(9)[0];
  workers[0].onmessage({ data: rows });
  assert.deepEqual(reader.expected.at(-1), [stretch(9)[0] + MEGABYTE, stretch(9)[0] + MEGABYTE + STRETCH].map((at) => Math.min(at, reader.bytes.length)));
  // A worker that fails leaves its stretches.
  reader.given = [];
  workers[0].onerror();
  assert.deepEqual([workers[0].isTerminated, workers[1].isTerminated, reader.given.length, reader.given.every(([, given]) => given === null)], [true, false, 4, true]);
  // Rows for an earlier text are dropped, and a text that is read gets no more.
  const next = readerOf(3 * MEGABYTE);
  reader.given = [];
  ahead.begin(next, {});
  workers[1].onmessage({ data: rows });
  assert.deepEqual(next.expected, [[MEGABYTE, MEGABYTE + STRETCH]]);
  assert.deepEqual([reader.given, next.given, workers[0].posted.filter(({ flags: of }) => of && !of.strict)], [[], [], []]);
  next.ending = 'whole';
  const before = next.expected.length;
  workers[1].onmessage({ data: rows });
  assert.equal(next.expected.length, before);
  ahead.begin(readerOf(5), {});
  while (workers[1].stretches.length > 0) workers[1].onmessage({ data: rows });
  assert.equal(next.given.length, 0);
}

// A single worker leaves every second stretch to the reader.
function oneWorker() {
  const ahead = startOf(2), reader = readerOf(8 * MEGABYTE);
  ahead.begin(reader, {});
  assert.deepEqual(reader.expected.map(([from]) => (from - MEGABYTE) / STRETCH), [0, 2, 4, 6]);
  workers[0].onmessage({ data: Uint32Array.of(1, 8) });
  assert.deepEqual([workers.length, reader.expected.at(-1)], [1, [MEGABYTE + 8 * STRETCH, MEGABYTE + 9 * STRETCH]]);
  ahead.begin(readerOf(2 * MEGABYTE), {});
  assert.equal(workers.length, 1);
  // No stretch is empty.
  const last = readerOf(2 * MEGABYTE);
  startOf(4).begin(last, {});
  assert.deepEqual([workers.length, last.expected], [3, [0, 1, 2, 3].map((i) => [MEGABYTE + i * STRETCH, MEGABYTE + (i + 1) * STRETCH])]);
}

async function theWorker() {
  const posted = [];
  Object.assign(globalThis, { onmessage: null, postMessage: (...given) => posted.push(given) });
  await import('./worker.js');
  globalThis.onmessage({ data: { module } });
  assert.deepEqual(posted, []);
  globalThis.onmessage({ data: { part: encoder.encode('(a "\\u{1__0}"'), from: 5, flags: { strict: true } } });
  const [[rows, moved]] = posted;
  assert.deepEqual([[...rows], moved], [[6, 4, 7, 8, 8, 3], [rows.buffer]]);
}

// ---- modules that run

const { LIMIT, Runner } = await import('./run.js');

async function runs() {
  workers.length = 0;
  const timers = new Map(), { setTimeout: setBefore, clearTimeout: clearBefore } = globalThis;
  Object.assign(globalThis, { setTimeout: (call, milliseconds) => timers.set(timers.size + 1, { call, milliseconds }).size, clearTimeout: (timer) => timers.get(timer).isCleared = true });
  const runner = new Runner();
  assert.equal(runner.isBusy, false);
  const first = runner.ask({ task: 'a' });
  assert.deepEqual([runner.isBusy, workers.length, workers[0].name, workers[0].options, workers[0].posted[0].task, timers.get(1).milliseconds, LIMIT], [true, 1, 'runner.js', { type: 'module' }, 'a', 5000, 5000]);
  workers[0].onmessage({ data: { results: [] } });
  assert.deepEqual([await first, runner.isBusy, timers.get(1).isCleared], [{ results: [] }, false, true]);
  // A message that no task awaits changes nothing. The worker stays for the next task, and ends at the time limit.
  workers[0].onmessage({ data: null });
  const second = runner.ask({ task: 'b' });
  assert.deepEqual([workers.length, workers[0].posted.length, workers[0].isTerminated], [1, 2, false]);
  timers.get(2).call();
  assert.deepEqual([await second, workers[0].isTerminated, runner.isBusy, timers.get(2).isCleared], [{ isLate: true }, true, false, true]);
  const third = runner.ask({ task: 'c' });
  assert.equal(workers.length, 2);
  runner.stop();
  assert.deepEqual([await third, workers[1].isTerminated, runner.isBusy], [null, true, false]);
  runner.stop();
  const fourth = runner.ask({ task: 'd' });
  workers[2].onerror();
  assert.deepEqual([await fourth, workers[2].isTerminated, timers.get(4).isCleared], [{ error: 'the worker could not be started' }, true, true]);
  Object.assign(globalThis, { setTimeout: setBefore, clearTimeout: clearBefore });
}

const WASM = [0, 97, 115, 109, 1, 0, 0, 0];
// A function without parameters that is exported as `f`: the types of its results, and its instructions.
const moduleOf = (results, ...code) => Uint8Array.of(...WASM, 1, 4 + results.length, 1, 0x60, 0, results.length, ...results, 3, 2, 1, 0, 7, 5, 1, 1, 102, 0, 0, 10, code.length + 4, 1, code.length + 2, 0, ...code, 0x0b);
const [I32, I64, FUNCREF] = [0x7f, 0x7e, 0x70];

async function theRunner() {
  const posted = [];
  Object.assign(globalThis, { onmessage: null, postMessage: (data) => posted.push(data) });
  await import('./runner.js');
  const ask = async (data) => {
    await globalThis.onmessage({ data });
    return posted.pop();
  };
  const call = (...given) => ask({ task: 'call', name: 'f', given });
  const started = { isValid: true, isStarted: true };
  for (const [bytes, results] of [[moduleOf([]), []], [moduleOf([I32], 0x41, 5), ['5']], [moduleOf([I64], 0x42, 0x7f), ['-1']], [moduleOf([I32, I64], 0x41, 0, 0x42, 1), ['0', '1']], [moduleOf([FUNCREF], 0xd0, 0x70), ['null']], [moduleOf([FUNCREF], 0xd2, 0), ['a function']]]) {
    assert.deepEqual([await ask({ task: 'start', bytes }), await call()], [started, { results }]);
  }
  assert.deepEqual([await ask({ task: 'start', bytes: moduleOf([], 0x00) }), await call()], [started, { error: 'RuntimeError: unreachable' }]);
  assert.match((await ask({ task: 'start', bytes: moduleOf([I32]) })).error, /^CompileError: /);
  // A start function that traps, and an import.
  const starting = Uint8Array.of(...WASM, 1, 4, 1, 0x60, 0, 0, 3, 2, 1, 0, 8, 1, 0, 10, 5, 1, 3, 0, 0, 0x0b);
  assert.deepEqual(await ask({ task: 'start', bytes: starting }), { isValid: true, isStarted: false, error: 'RuntimeError: unreachable' });
  const importing = Uint8Array.of(...WASM, 1, 4, 1, 0x60, 0, 0, 2, 7, 1, 1, 97, 1, 98, 0, 0);
  assert.deepEqual(await ask({ task: 'start', bytes: importing }), { isValid: true, isStarted: false });
  // Arguments reach the function.
  const adding = Uint8Array.of(...WASM, 1, 7, 1, 0x60, 2, I32, I32, 1, I32, 3, 2, 1, 0, 7, 5, 1, 1, 102, 0, 0, 10, 9, 1, 7, 0, 0x20, 0, 0x20, 1, 0x6b, 0x0b);
  assert.deepEqual([await ask({ task: 'start', bytes: adding }), await call(7, 2)], [started, { results: ['5'] }]);
}

// ---- links

const { fragmentOf, givenBy } = await import('./link.js');
const packed = (bytes) => deflateRawSync(bytes).toString('base64url');

async function links() {
  const bytes = Uint8Array.from({ length: 3000 }, (_, i) => (i * i * 31) >> 3);
  for (const [allow, strict, counts, names] of [[true, false, false, ''], [false, true, false, 'a b+c&d=%'], [false, false, true, '\u6f22']]) {
    const fragment = await fragmentOf({ bytes, allow, strict, counts, names });
    assert.match(fragment, /^text=[\w-]+(&[\w=%+.*-]+)*$/);
    for (const given of [fragment, `#${fragment}`]) assert.deepEqual(await givenBy(given), { bytes, allow, strict, counts, names });
  }
  assert.equal(await fragmentOf({ bytes: new Uint8Array() }), `text=${packed('')}`);
  assert.deepEqual([await givenBy(''), await givenBy('#a=b')], [null, null]);
  assert.deepEqual(await givenBy(`text=${packed('(a)')}`), { bytes: encoder.encode('(a)'), allow: false, strict: false, counts: false, names: '' });
  for (const word of ['x', '%%%', '']) await assert.rejects(givenBy(`text=${word}`), word);
}

async function longLinks() {
  const { length } = await fragmentOf({ bytes: encoder.encode('(a)'), names: 'a' });
  const named = (count) => fragmentOf({ bytes: encoder.encode('(a)'), names: 'a'.repeat(count) });
  assert.equal((await named(100_001 - length)).length, 100_000);
  assert.equal(await named(100_002 - length), null);
  assert.equal((await givenBy(`text=${packed(Buffer.alloc(1 << 24))}`)).bytes.length, 1 << 24);
  await assert.rejects(givenBy(`text=${packed(Buffer.alloc((1 << 24) + 1))}`), RangeError);
}

const checks = [sizes, drawing, boxesOfViews, reveals, revealsAcross, columns, workersAhead, oneWorker, theWorker, runs, theRunner, links, longLinks];
for (const check of checks) await check();
console.log(`faked.mjs: ${checks.length} checks passed`);
