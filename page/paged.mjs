// Tests page.js in node, over a substitute for the browser's document (elements.mjs). Takes a second; browser.mjs tests the page in a browser.
// usage: node paged.mjs, once build.sh has made the module
import assert from 'node:assert/strict';
import { readFileSync } from 'node:fs';
import { Document } from './elements.mjs';
import { EXAMPLES } from './examples.js';
import { Whole } from './wat-lex/whole.js';

const read = (name) => readFileSync(new URL(name, import.meta.url));
const document = new Document(read('index.html').toString());
const frames = [], resized = [], copied = [], measured = [], started = [], ofWindow = {}, location = { hash: '', href: 'page' };
// The messages that the page has posted to itself.
const messages = [];
// The milliseconds that pass between two calls of the clock, and whether the link can be copied.
let step = 0, time = 0, isCopied = true;
const clipboard = { writeText: async (text) => { if (!isCopied) throw new Error('refused'); copied.push(text); } };
const globals = {
  document, location, navigator: { hardwareConcurrency: 1, clipboard }, Node: { TEXT_NODE: 3 },
  window: { addEventListener: (name, call) => { ofWindow[name] = call; } },
  history: { replaceState: (state, title, address) => Object.assign(location, { hash: address, href: `page${address}` }) },
  ResizeObserver: class {
    constructor(call) { resized.push(call); }
    observe() {}
  },
  MessageChannel: class { port1 = {}; port2 = { postMessage: () => messages.push(this.port1) }; },
  requestAnimationFrame: (call) => frames.push(call), getComputedStyle: () => ({ fontSize: '13px', fontFamily: 'mono' }),
  fetch: async (name) => ({ arrayBuffer: async () => read(`out/${name}`) }),
};
for (const [name, value] of Object.entries(globals)) Object.defineProperty(globalThis, name, { value, configurable: true, writable: true });
Object.assign(performance, { now: () => { time += step; return time; }, measure: (name, { start }) => started.push(start) && measured.push(name) });
const $ = (id) => document.getElementById(id);
const bytesOf = (text) => new TextEncoder().encode(text);
// Lets other tasks run, and delivers the messages.
async function pause() {
  await new Promise((done) => setTimeout(done, 2));
  for (const port of messages.splice(0)) port.onmessage();
}

// ---- the page's state

// The class of a piece, without the mark of the compiler's error.
const classOf = (it) => it.className.replace(' rejected', '');
const OF_PIECE = (it) => (it.className === 'caret' ? `|${it.getAttribute('aria-hidden')}` : `${classOf(it)} ${it.dataset.from} ${it.textContent}${it.dataset.mark ?? ''}${it.id && '#'}`);
const linesOf = () => $('seen').children.map((it) => it.children.filter((piece) => piece.className !== 'rejected').map(OF_PIECE));
const isRejected = (it) => it.className.split(' ').includes('rejected');
const shown = (id) => ($(id).hidden ? null : $(id).textContent);
const nextFrame = (given) => {
  for (const frame of frames.splice(0)) frame();
  return given;
};
const STATE = {
  lines: linesOf,
  numbers: () => $('numbers').firstElementChild.textContent.replaceAll('\n', ' '),
  list: () => $('list').querySelector('.seen').children.map((it) => it.children.map((part) => part.textContent).join(' ')),
  kinds: () => $('list').querySelector('.seen').children.map((it) => it.children.map((part) => part.className).join(' ')),
  roles: () => $('list').querySelector('.seen').children.map((it) => [it.id, it.getAttribute('role'), it.getAttribute('aria-selected'), it.getAttribute('aria-posinset'), it.getAttribute('aria-setsize')].join(' ')),
  held: () => $('list').getAttribute('aria-activedescendant'),
  place: () => $('place').textContent, said: () => shown('said'), go: () => shown('go'), wrong: () => $('state').className, size: () => shown('size'),
  message: () => shown('message'), counted: () => shown('counted'), bytes: () => ($('module-part').hidden || $('built').hidden ? null : $('bytes').textContent),
  rejected: () => $('seen').all.filter(isRejected).map((it) => `${it.className} ${it.dataset.from} ${it.textContent}${it.dataset.mark ?? ''}`), moduleSaid: () => ($('module-part').hidden ? null : shown('module-said')), moduleGo: () => shown('module-go'), moduleMessage: () => shown('module-message'),
  ran: () => shown('ran'), fields: () => ($('interface').hidden ? null : $('interface').children.map((it) => it.textContent)), isCalled: () => !$('call').hidden, results: () => shown('results'), menu: () => $('callee').children.map((it) => it.textContent),
  inputs: () => $('arguments').children.map((it) => `${it.textContent}${inputOf(it).getAttribute('aria-label')}: ${inputOf(it).value} ${inputOf(it).getAttribute('aria-invalid')}`),
  note: () => shown('note'), formatted: () => shown('formatted'), shared: () => shown('shared'), ending: () => document.body.dataset.ending, value: () => $('text').value, isHidden: () => $('text').hidden,
  selection: () => [$('text').selectionStart, $('text').selectionEnd], width: () => $('numbers').style.width, active: () => document.activeElement.id,
  scroll: () => nextFrame(['text', 'view', 'list']).map((id) => [$(id).scrollTop, $(id).scrollLeft]), heights: () => ['text', 'view', 'list'].map((id) => $(id).querySelector('.all')?.style.height),
  role: () => [$('view').getAttribute('role'), $('view').getAttribute('tabindex'), $('view').getAttribute('aria-labelledby'), $('view').getAttribute('aria-describedby'), $('view').ariaHidden, $('view').className],
};

const inputOf = (label) => label.firstElementChild;

// Compares parts of the page's state.
function expect(wanted, name) {
  for (const [part, value] of Object.entries(wanted)) assert.deepEqual(STATE[part](), value, `${name ?? ''} ${part}`);
}

// ---- actions

// Types into the text area. Selects an example first if the text area is hidden.
function type(text, cursor = 0) {
  if ($('text').hidden) $('example').send('change');
  $('text').value = text;
  $('text').setSelectionRange(cursor, cursor);
  $('text').send('input');
}

// Opens a file, and waits until it is read.
async function drop(text, file = { arrayBuffer: async () => (typeof text === 'string' ? bytesOf(text) : text).buffer }) {
  document.send('drop', { dataTransfer: { files: [file] } });
  await pause();
}

function select(from, to = from) {
  document.activeElement = $('text');
  $('text').setSelectionRange(from, to);
  document.send('selectionchange');
}

const key = (id, name, ctrlKey = false) => $(id).send('keydown', { key: name, ctrlKey });
const check = (id, isSet) => {
  $(id).checked = isSet;
  $(id).send('change');
};
const press = (id) => $(id).send('click');

function resize(id, height) {
  $(id).clientHeight = height;
  for (const call of resized) call();
}

// ---- checks

async function opening() {
  await import('./page.js');
  for (let i = 0; i < 100 && document.body.dataset.ready !== 'yes'; i += 1) await pause();
  expect({ value: EXAMPLES[0].text, said: 'No lexical error.', wrong: '', ending: 'whole', isHidden: false, place: 'Line 1, character 1, byte 0', selection: [0, 0] });
  const listening = ['save', 'run', 'callee', 'call', 'module-go'].map((id) => Object.keys($(id).listeners).join());
  assert.deepEqual(listening, ['click', 'click', 'change', 'submit', 'click']);
  assert.deepEqual([document.body.dataset.ready, $('example').children.map((it) => it.textContent), $('format').hidden], ['yes', EXAMPLES.map((it) => it.name), false]);
  for (const [i, { text, name }] of EXAMPLES.entries()) {
    $('example').selectedIndex = i;
    $('example').send('change');
    expect({ value: text, ending: name.startsWith('A fault') ? 'faulty' : 'whole' }, name);
  }
}

const TYPED = [
  ['(module (func $foo))', 0, [['LParen match 0 (', 'Keyword 1 module', 'Whitespace 7  ', 'LParen 8 (', 'Keyword 9 func', 'Whitespace 13  ', 'Id 14 $foo', 'RParen 18 )', 'RParen match 19 )']]],
  ['(a $b)\n(c "d")\n', 3, [['LParen 0 (', 'Keyword 1 a', 'Whitespace 2  ', 'Id held 3 $b', 'RParen 5 )', 'Whitespace 6 \n'], ['LParen 7 (', 'Keyword 8 c', 'Whitespace 9  ', 'String 10 "d"', 'RParen 13 )', 'Whitespace 14 \n'], []]],
  ['a )', 2, [['Keyword 0 a', 'Whitespace 1  ', 'RParen alone 2 )']]],
  ['1 \u00e9 tail', 0, [['Integer held 0 1', 'Whitespace 1  ', 'fault 2 \u00e9#', 'unread 4  tail']]],
  ['a"b', 0, [['unread 0 a"b', 'fault 3 \u258f#']]],
  ['a "b\n c', 0, [['Keyword held 0 a', 'Whitespace 1  ', 'unread 2 "b', 'fault 4 \n\u21b5#'], ['unread 5  c']]],
  ['"\u{1f600}" ;; \u6f22\n\tx', 0, [['String held 0 "\u{1f600}"', 'Whitespace 6  ', 'LineComment 7 ;; \u6f22', 'Whitespace 13 \n'], ['Whitespace 14 \t', 'Keyword 15 x']]],
  ['(; a\nb ;)', 9, [['BlockComment held 0 (; a\n'], ['BlockComment held 5 b ;)']]],
  ['', 0, [[]]],
];

function typing() {
  for (const [text, cursor, lines] of TYPED) {
    type(text, cursor);
    expect({ lines, numbers: lines.map((_, i) => i + 1).join(' ') }, text);
  }
  assert.deepEqual($('seen').children[0].style, {});
  type('1 \u00e9 tail');
  expect({ ending: 'faulty', said: null, go: "Line 1, column 3: unexpected character '\\u{e9}'", message: "unexpected character '\\u{e9}'\n     --> <anon>:1:3\n      |\n    1 | 1 \u00e9 tail\n      |   ^", size: '2 tokens, 9 bytes.', wrong: '' });
  type(`x\n${'y '.repeat(2500)}\n"\\q`);
  expect({ size: '5,002 tokens, 5,006 bytes.', go: "Line 3, column 3: invalid string escape 'q'" });
  type('a');
  expect({ ending: 'whole', said: 'No lexical error.', go: null, message: null, size: '1 token, 1 byte.' });
  // A line that moved keeps its element, with new offsets.
  type('(func)\n(func)\n');
  const [first, second] = $('seen').children;
  type('\n(func)\n(func)\n');
  assert.deepEqual([$('seen').children[1] === first || $('seen').children[1] === second, linesOf()[1][1], linesOf()[2][1]], [true, 'Keyword 2 func', 'Keyword 9 func']);
  type('(func)\n(func)\n');
  assert.deepEqual([linesOf()[0][1], linesOf()[1][1]], ['Keyword 1 func', 'Keyword 8 func']);
  $('text').value = '(b';
  $('text').setSelectionRange(1, 1);
  $('text').send('input');
  expect({ place: 'Line 1, character 2, byte 1', held: 'token-1' });
}

function theList() {
  type('(a $b)\r\t"\u00e9"', 3);
  expect({
    list: ['0..1 LParen (', '1..2 Keyword a', '2..3 Whitespace  ', '3..5 Id $b', '5..6 RParen )', '6..8 Whitespace \u21b5\u21e5', '8..12 String "\u00e9"'],
    kinds: ['LParen', 'Keyword', 'Whitespace', 'Id', 'RParen', 'Whitespace', 'String'].map((kind) => `place kind ${kind} token`),
    roles: [0, 1, 2, 3, 4, 5, 6].map((i) => `token-${i} option ${i === 3} ${i + 1} 7`), held: 'token-3', place: 'Line 1, character 4, byte 3',
  });
  type(`;; ${'\u6f22'.repeat(50)}`);
  expect({ list: [`0..153 LineComment ;; ${'\u6f22'.repeat(39)}`] });
  select(5);
  expect({ place: 'Line 1, character 6, byte 9', held: 'token-0' });
  type('"');
  expect({ list: [], held: null });
  const text = 'x\n'.repeat(300);
  type(text, 600);
  expect({ held: 'token-599', heights: [undefined, undefined, '12000px'], width: '5ch', numbers: Array.from({ length: 17 }, (_, i) => i + 1).join(' ') });
  assert.ok(frames.length > 0);
  nextFrame();
  assert.deepEqual([$('list').scrollTop, STATE.list().at(-1)], [11_701, '599..600 Whitespace \u21b5']);
  assert.equal(STATE.roles().at(-1), 'token-599 option true 600 600');
  type(`${text.repeat(4)}`);
  expect({ width: '6ch' });
}

function theListByKeys() {
  type('(a $b)\n(c "d") \u00e9', 8);
  for (const [name, held, place] of [['Home', 'token-0', 0], ['ArrowDown', 'token-1', 1], ['ArrowDown', 'token-2', 2], ['ArrowUp', 'token-1', 1], ['PageDown', 'token-11', 14], ['ArrowDown', 'token-11', 14], ['PageUp', 'token-0', 0], ['ArrowUp', 'token-0', 0], ['End', 'token-11', 14]]) {
    assert.equal(key('list', name).isPrevented, true);
    expect({ held, selection: [place, place] }, name);
  }
  const others = ['x', 'Enter'].map((name) => key('list', name).isPrevented);
  $('list').send('click', { target: { closest: (selector) => (selector === '[role=option]' ? { id: 'token-3' } : null) } });
  expect({ held: 'token-3', selection: [3, 3] });
  $('list').send('click', { target: { closest: () => null } });
  expect({ held: 'token-3' });
  type('"');
  assert.deepEqual([...others, key('list', 'Home').isPrevented], [false, false, false]);
  type('x', 1);
  assert.equal(key('list', 'Home').isPrevented, true);
  expect({ selection: [0, 0], held: 'token-0' });
  const text = 'x '.repeat(100);
  type(text);
  for (const [height, moves] of [[300, [['PageDown', 14], ['PageDown', 28], ['PageUp', 14], ['End', 199]]], [30, [['PageUp', 198], ['PageUp', 197]]], [300, [['Home', 0]]]]) {
    resize('list', height);
    for (const [name, place] of moves) {
      key('list', name);
      expect({ selection: [place, place] }, name);
    }
  }
}

async function shownTexts() {
  await drop('(a $b)\n(c "d")\r\n');
  const note = 'A text with line ends of two kinds is shown, and not edited. Arrow keys, Home, End and the page keys move the cursor, and so does a click.';
  expect({ note, isHidden: true, value: '', role: ['group', '0', 'text-name', 'note', null, 'fixed'], said: 'No lexical error.' });
  expect({ lines: [['|true', 'LParen match 0 (', 'Keyword 1 a', 'Whitespace 2  ', 'Id 3 $b', 'RParen match 5 )', 'Whitespace 6 \n'], ['LParen 7 (', 'Keyword 8 c', 'Whitespace 9  ', 'String 10 "d"', 'RParen 13 )', 'Whitespace 14 \r\n'], []] });
  const moves = [['ArrowRight', 1], ['ArrowDown', 8], ['ArrowLeft', 7], ['ArrowUp', 0], ['ArrowLeft', 0], ['End', 6], ['ArrowDown', 13], ['ArrowDown', 16], ['ArrowDown', 16], ['ArrowUp', 7], ['End', 15], ['Home', 7], ['PageDown', 16], ['PageUp', 0]];
  for (const [name, place] of moves) {
    assert.equal(key('view', name).isPrevented, true);
    assert.match(STATE.place(), new RegExp(`byte ${place}$`), name);
  }
  for (const [name, place] of [['End', 16], ['Home', 0]]) {
    key('view', name, true);
    assert.match(STATE.place(), new RegExp(`byte ${place}$`), name);
  }
  assert.equal(key('view', 'x').isPrevented, false);
  key('view', 'End', true);
  expect({ lines: [['LParen 0 (', 'Keyword 1 a', 'Whitespace 2  ', 'Id 3 $b', 'RParen 5 )', 'Whitespace 6 \n'], ['LParen 7 (', 'Keyword 8 c', 'Whitespace 9  ', 'String 10 "d"', 'RParen 13 )', 'Whitespace held 14 \r\n'], ['|true']], selection: [0, 0] });
  // The cursor within a token, and before a character of several bytes.
  await drop('ab"\u6f22\u00e9"\r');
  expect({ lines: [['|true', 'Reserved held 0 ab"\u6f22\u00e9"', 'Whitespace 9 \r']] });
  for (const [place, lines] of [[1, ['Reserved held 0 a', '|true', 'Reserved held 1 b"\u6f22\u00e9"']], [2], [3], [6, ['Reserved held 0 ab"\u6f22', '|true', 'Reserved held 6 \u00e9"']], [8], [9]]) {
    key('view', 'ArrowRight');
    assert.match(STATE.place(), new RegExp(`byte ${place}$`));
    if (lines) assert.deepEqual(linesOf()[0].slice(0, 3), lines.slice(0, 3));
  }
  assert.equal(linesOf()[0].length, 3);
  await drop('"a\r"');
  expect({ lines: [['unread 0 "a', '|true', 'fault 2 \r\u21b5#', 'unread 3 "']] });
  // The cursor is drawn once at an error at the end of the text.
  await drop('a\r"b');
  expect({ lines: [['Keyword 0 a', 'Whitespace 1 \r', 'unread 2 "b', 'fault 4 \u258f#', '|true']] });
  $('example').selectedIndex = 0;
  $('example').send('change');
  expect({ note: null, isHidden: false, role: [null, null, null, null, 'true', ''] });
  assert.deepEqual([key('view', 'End').isPrevented, STATE.selection()], [false, [0, 0]]);
}

async function clicks() {
  await drop('(a "\u6f22" $b)\n\r\nc');
  const piece = $('seen').children[0].children.find((it) => it.textContent.includes('\u6f22'));
  const click = (name, spot) => {
    Object.assign(document, { caretPositionFromPoint: undefined, caretRangeFromPoint: undefined, [name]: (x, y) => (x === 5 && y === 6 ? spot : null) });
    $('view').send('click', { clientX: 5, clientY: 6 });
    return Number(/byte (\d+)$/.exec(STATE.place())[1]);
  };
  assert.equal(click('caretPositionFromPoint', { offsetNode: piece.firstChild, offset: 2 }), 7);
  const pieces = () => $('seen').children;
  assert.equal(click('caretRangeFromPoint', { startContainer: pieces()[0].children[1].firstChild, startOffset: 1 }), 1 + 1);
  for (const [line, place] of [[0, 12], [1, 13], [2, 16]]) assert.equal(click('caretPositionFromPoint', { offsetNode: pieces()[line], offset: 0 }), place);
  assert.equal(click('caretPositionFromPoint', null), 16);
  assert.equal(click('caretPositionFromPoint', { offsetNode: $('view'), offset: 0 }), 16);
}

async function scrolling() {
  type(`${'x\n'.repeat(200)}`);
  key('list', 'End');
  expect({ scroll: [[3701, 0], [0, 0], [7701, 0]] });
  assert.deepEqual([STATE.numbers().split(' ')[0], $('seen').style.top, $('numbers').firstElementChild.style.top], ['184', '-41px', '-41px']);
  key('list', 'Home');
  expect({ scroll: [[0, 0], [0, 0], [0, 0]] });
  type(`${' '.repeat(200)}\n${'y'.repeat(300)} z`, 0);
  key('list', 'End');
  expect({ scroll: [[0, 2108], [0, 0], [0, 0]] });
  await drop(`${'x\n'.repeat(200)}\r\n`);
  expect({ scroll: [[0, 0], [0, 0], [0, 0]] });
  key('view', 'End', true);
  expect({ scroll: [[0, 0], [3741, 0], [7701, 0]], heights: [undefined, '4040px', '8000px'] });
  key('view', 'PageUp');
  assert.match(STATE.place(), /^Line 188,/);
  key('view', 'PageDown');
  assert.match(STATE.place(), /^Line 202,/);
  resize('view', 30);
  key('view', 'PageUp');
  assert.match(STATE.place(), /^Line 201,/);
  resize('view', 300);
  await drop(`${'y'.repeat(300)} z\r`);
  key('view', 'End');
  assert.deepEqual(STATE.scroll()[1], [0, 2124]);
}

// Long lines, of which only a part is drawn.
async function longLines() {
  await drop(`;; ${'x'.repeat(5000)}\r\n\ny`);
  const drawn = () => [linesOf()[0], $('seen').children[0].textContent];
  const x = (count) => 'x'.repeat(count);
  assert.deepEqual(drawn(), [['|true', `LineComment held 0 ;; ${x(1997)}`], `;; ${x(1997)}\u2026\n`]);
  key('view', 'End');
  assert.deepEqual(drawn(), [[`LineComment 3005 ${x(1998)}`, 'Whitespace held 5003 \r', '|true', 'Whitespace held 5004 \n'], `\u2026${x(1998)}\r\n`]);
  key('view', 'Home');
  document.caretPositionFromPoint = () => ({ offsetNode: $('seen').children[0].children[1].firstChild, offset: 1500 });
  $('view').send('click', {});
  assert.deepEqual(drawn(), [[`LineComment held 500 ${x(1000)}`, '|true', `LineComment held 1500 ${x(1000)}`], `\u2026${x(2000)}\u2026\n`]);
  // In a line without the cursor, the part with the error is drawn, or the first part.
  await drop(`a\r${x(3000)}\n\n ${x(3000)}\u{1}${x(3000)}\n`);
  key('view', 'Home', true);
  expect({ lines: [['|true', 'Keyword held 0 a', 'Whitespace 1 \r', `Keyword 2 ${x(1998)}`], ['Whitespace 3003 \n'], [`Keyword 5005 ${x(1000)}`, 'fault 6005 \u0001#', `unread 6006 ${x(999)}`], []], go: "Line 3, column 3002: unexpected character '\\u{1}'" });
  // The cursor at the start of the next line is not in the line.
  key('view', 'ArrowDown');
  assert.deepEqual(linesOf()[0], ['Keyword 0 a', 'Whitespace 1 \r', `Keyword 2 ${x(1998)}`]);
  // An error after the part that is drawn.
  await drop(`${x(2000)}\u{1}${x(3000)}\r`);
  key('view', 'Home');
  assert.deepEqual(linesOf()[0], ['|true', `Keyword held 0 ${x(2000)}`]);
  await drop(`"${x(1999)}\ny\r`);
  key('view', 'Home');
  assert.deepEqual(linesOf()[0], ['|true', `unread 0 "${x(1999)}`]);
  for (const [count, drawn] of [[1999, 2000], [2000, 113]]) {
    type(`\n\n${x(count)}\n`);
    assert.equal($('seen').children[2].textContent.length, drawn);
  }
  // In the text area, the part in sight is drawn, at its position.
  type(`${'(a\tb) '.repeat(1000)}\n`);
  const line = () => $('seen').children[0];
  assert.deepEqual([line().textContent, line().style], ['(a\tb) '.repeat(1000).slice(0, 86), {}]);
  $('text').scrollTo(4000, 0);
  $('text').send('scroll');
  assert.deepEqual([line().style, line().textContent, line().children[0].dataset.from], [{ paddingLeft: '3680px', textIndent: '24px' }, '(a\tb) '.repeat(1000).slice(348, 460), 348]);
}

// A text whose lexing takes longer than the first part is lexed in parts, between other tasks.
async function partsOfTexts() {
  const text = 'x\n'.repeat(200_000);
  step = 10;
  measured.length = 0;
  document.send('drop', { dataTransfer: { files: [{ arrayBuffer: async () => bytesOf(text).buffer }] } });
  for (let i = 0; i < 20 && STATE.ending() !== 'unread'; i += 1) await Promise.resolve();
  expect({ ending: 'unread', said: 'The text is being read.', note: null });
  // Only one message is under way.
  for (const isSet of [true, false]) check('strict', isSet);
  assert.deepEqual([messages.length, measured.splice(1)], [1, ['show', 'show']]);
  started.splice(0, started.length - 1);
  press('format');
  expect({ formatted: 'The text is still being read.' });
  assert.deepEqual(measured, ['show']);
  // A line in sight is drawn as soon as it is lexed.
  const scrollTo = (top) => {
    $('text').scrollTo(0, top);
    $('text').send('scroll');
  };
  scrollTo(2_000_000);
  assert.deepEqual(linesOf()[0], ['unread 199996 x\n']);
  for (let i = 0; i < 500 && linesOf()[0].length === 1; i += 1) await pause();
  expect({ ending: 'unread' });
  assert.deepEqual(linesOf()[0], ['Keyword 199996 x', 'Whitespace 199997 \n']);
  scrollTo(0);
  for (let i = 0; i < 500 && STATE.ending() === 'unread'; i += 1) await pause();
  expect({ ending: 'whole', said: 'No lexical error.', size: '400,000 tokens, 400,000 bytes.', width: '8ch', formatted: 'The text is still being read.' });
  assert.deepEqual([measured, started[1] > 0, started[1]], [['show', 'read'], true, started[0]]);
  type('y');
  assert.deepEqual(measured.slice(2), ['show', 'read']);
  // The cursor moves to an error, unless the user has moved it before.
  const put = (piece, at) => {
    $('text').value = `${text.slice(0, at)}${piece}${text.slice(at)}"`;
    $('text').setSelectionRange(at + piece.length, at + piece.length);
    $('text').send('input');
  };
  for (const [move, place] of [[() => {}, 400_001], [() => select(10), 10], [() => put('"y"', 6), 9]]) {
    document.send('drop', { dataTransfer: { files: [{ arrayBuffer: async () => bytesOf(`${text}"`).buffer }] } });
    for (let i = 0; i < 20 && STATE.ending() !== 'unread'; i += 1) await Promise.resolve();
    move();
    for (let i = 0; i < 500 && STATE.ending() === 'unread'; i += 1) await pause();
    expect({ ending: 'faulty', selection: [place, place] });
  }
  // A change may end the text before the message arrives.
  document.send('drop', { dataTransfer: { files: [{ arrayBuffer: async () => bytesOf(text).buffer }] } });
  for (let i = 0; i < 20 && STATE.ending() !== 'unread'; i += 1) await Promise.resolve();
  measured.length = 0;
  type('y');
  await pause();
  assert.deepEqual(measured, ['show', 'read']);
  step = 0;
}

async function faults() {
  await drop(`${'\n'.repeat(100)}  "\\q"`);
  expect({ go: "Line 101, column 5: invalid string escape 'q'", selection: [104, 104], place: 'Line 101, character 5, byte 104', scroll: [[1721, 0], [0, 0], [0, 0]].map((it, i) => (i < 2 ? it : STATE.scroll()[2])) });
  key('list', 'Home');
  document.activeElement = $('list');
  press('go');
  expect({ selection: [104, 104], active: 'text' });
  assert.deepEqual($('text').focused, { preventScroll: true });
  assert.deepEqual(document.revealed, ['text']);
  // The cursor stays if the user moved it before the error was found, and a text without an error begins at its start.
  type('a "\\q', 1);
  expect({ selection: [1, 1], place: 'Line 1, character 2, byte 1' });
  type(`${'x'.repeat(600)} "\\q`);
  expect({ go: "Line 1, column 604: invalid string escape 'q'", message: "invalid string escape 'q' at <anon>:1:604" });
  // A long line of the message is cut.
  type(`"\\q${'x'.repeat(5000)}`);
  assert.deepEqual(STATE.message().split('\n').map((it) => it.length), ["invalid string escape 'q'".length, '     --> <anon>:1:3'.length, 7, 4000, 11]);
  await drop(Uint8Array.of(40, 255));
  const note = 'Only a text in UTF-8 can be edited here. Arrow keys, Home, End and the page keys move the cursor, and so does a click.';
  expect({ said: 'The text is not UTF-8 from byte 1 on.', wrong: 'wrong', go: null, note, isHidden: true, ending: 'not UTF-8', size: '0 tokens, 2 bytes.', message: null });
  assert.deepEqual(linesOf(), [['|true', 'unread 0 (\ufffd']]);
  await drop('(a)');
  expect({ said: 'No lexical error.', wrong: '', isHidden: false, note: null });
}

async function files() {
  for (const [size, isEdited] of [[1 << 20, true], [(1 << 20) + 1, false]]) {
    await drop(' '.repeat(size));
    const note = isEdited ? null : 'A text of more than a megabyte is shown, and not edited. Arrow keys, Home, End and the page keys move the cursor, and so does a click.';
    expect({ note, isHidden: !isEdited });
  }
  for (const [text, isEdited] of [['a\r\nb\r\n', true], ['a\nb\r\n', false], ['a\rb\n', false], ['\n\r', false], ['\n\r\r\n', false], ['ab', true]]) {
    await drop(text);
    expect({ isHidden: !isEdited, value: isEdited ? text.replaceAll('\r\n', '\n') : '' }, JSON.stringify(text));
  }
  await drop('(a)');
  await drop('', { arrayBuffer: async () => { throw new RangeError('refused'); } });
  expect({ said: 'The file could not be read: RangeError: refused', wrong: 'wrong', value: '(a)' });
  await drop('(a)');
  document.send('drop', { dataTransfer: { files: [] } });
  await pause();
  expect({ value: '(a)', said: 'No lexical error.' });
  assert.deepEqual([document.send('dragover').isPrevented, document.send('drop', { dataTransfer: { files: [] } }).isPrevented], [true, true]);
  await replacing(WebAssembly.Memory.prototype, 'grow', refuse, () => drop('(dropped)'.repeat(1e6)));
  expect({ said: 'The file could not be read: RangeError: refused', value: '', lines: [[]] });
  $('file').files = [{ arrayBuffer: async () => bytesOf('(b)').buffer }];
  $('file').send('change');
  await pause();
  expect({ value: '(b)', said: 'No lexical error.' });
}

function selections() {
  type('"\u00e9" (x)\n"\u{1f600}"', 0);
  for (const [at, place, held] of [[2, 'Line 1, character 3, byte 3', 'token-0'], [4, 'Line 1, character 5, byte 5', 'token-2'], [11, 'Line 2, character 3, byte 14', 'token-6']]) {
    select(at);
    expect({ place, held, selection: [at, at] });
  }
  document.activeElement = $('list');
  $('text').setSelectionRange(0, 0);
  document.send('selectionchange');
  expect({ place: 'Line 2, character 3, byte 14' });
  // The scroll position stays at a selection in the text area.
  type('x\n'.repeat(200), 0);
  select(300);
  assert.deepEqual([STATE.place(), STATE.scroll()[0]], ['Line 151, character 1, byte 300', [0, 0]]);
}

async function lineEnds() {
  await drop('(a)\r\n"\u{1f600}"\r\n');
  $('text').value = '(a)\n"\u{1f600}"\nb\nc';
  $('text').setSelectionRange(10, 10);
  $('text').send('input');
  expect({ size: '9 tokens, 17 bytes.', place: 'Line 3, character 2, byte 14', lines: [['LParen 0 (', 'Keyword 1 a', 'RParen 2 )', 'Whitespace 3 \r\n'], ['String 5 "\u{1f600}"', 'Whitespace 11 \r\n'], ['Keyword 13 b', 'Whitespace held 14 \r\n'], ['Keyword 16 c']] });
}

async function settings() {
  for (const [id, text] of [['allow', ';;\u202e'], ['strict', '"\\u{1__0}"']]) {
    const endings = id === 'allow' ? ['faulty', 'whole', 'faulty'] : ['whole', 'faulty', 'whole'];
    type(text, 1);
    const seen = [STATE.ending()];
    for (const isSet of [true, false]) {
      check(id, isSet);
      seen.push(STATE.ending());
    }
    assert.deepEqual([seen, STATE.place().slice(-6)], [endings, 'byte 1'], id);
  }
  // The cursor moves to an error only when a text is opened.
  await drop('"\\u{1__0}"');
  check('strict', true);
  expect({ ending: 'faulty', selection: [0, 0] });
  check('strict', false);
}

function counted() {
  type('(@a x) (@b "y") (; c ;) z', 17);
  check('counts', true);
  expect({ held: null, list: ['24..25 Keyword z'] });
  assert.ok(linesOf()[0].slice(0, -1).every((it) => it.startsWith('skipped')));
  select(24);
  expect({ counted: '1 token of 15 count.', list: ['24..25 Keyword z'], held: 'token-14', roles: ['token-14 option true 1 1'] });
  assert.ok(linesOf()[0].slice(0, -1).every((it) => it.startsWith('skipped')));
  $('names').value = ' b  c';
  $('names').send('input');
  expect({ list: ['7..8 LParen (', '8..10 Annotation @b', '11..14 String "y"', '14..15 RParen )', '24..25 Keyword z'], counted: '5 tokens of 15 count.' });
  key('list', 'Home');
  key('list', 'ArrowDown');
  expect({ selection: [8, 8], held: 'token-7' });
  select(17);
  expect({ held: null, roles: ['token-6', 'token-7', 'token-9', 'token-10', 'token-14'].map((id, i) => `${id} option false ${i + 1} 5`) });
  type('x (@d (y)', 0);
  expect({ counted: '1 token of 8 count. Then: unclosed annotation at byte offset 3.', lines: [['Keyword held 0 x', 'skipped 1  ', 'skipped 2 (', 'skipped 3 @d', 'skipped 5  ', 'skipped 6 (', 'skipped 7 y', 'skipped 8 )']] });
  $('names').value = '';
  check('counts', false);
  expect({ counted: null });
  assert.equal(STATE.list().length, 8);
}

// The binary form, with a name section for `$a`.
function binaries() {
  const text = '(module (type $a (func (param $p i32) (param i64 f32) (result f64))) (@x y) (type (func)))';
  const compiled = { bytes: '00000000  00 61 73 6d 01 00 00 00 01 0b 02 60 03 7f 7e 7d\n00000010  01 7c 60 00 00 00 0b 04 6e 61 6d 65 04 04 01 00\n00000020  01 61', moduleSaid: 'The text is a valid module, whose binary form has 34 bytes.', moduleGo: null, moduleMessage: null, rejected: [] };
  type(text);
  expect(compiled);
  check('allow', true);
  expect(compiled);
  check('allow', false);
  type('"');
  expect({ bytes: null, moduleSaid: null, moduleGo: null, moduleMessage: null });
  assert.equal($('module-part').hidden, true);
  type('');
  expect({ bytes: '00000000  00 61 73 6d 01 00 00 00', moduleSaid: 'The text is a valid module, whose binary form has 8 bytes.' });
  for (const [count, size] of [[1361, '4,096 bytes.'], [1362, '4,099 bytes, of which the first 4096 are shown.']]) {
    type(`(module ${'(type (func))'.repeat(count)})`);
    expect({ moduleSaid: `The text is a valid module, whose binary form has ${size}` });
    assert.equal(STATE.bytes().split('\n').length, 256);
  }
}

// Errors of the compiler: their marks in the text, and their reports.
function rejectedTexts() {
  for (const [text, mark, line, column] of [['(module\n  frob)', 'Keyword rejected 10 frob', 2, 3], ['x', 'Keyword rejected held 0 x', 1, 1], ['(module) )', 'RParen rejected alone 9 )', 1, 10], ['(module', 'rejected 7 \u258f', 1, 8], ['(func\n', 'rejected 6 \u258f', 2, 1], ['(; a ;) 1\n(func)', 'Integer rejected 8 1', 1, 9]]) {
    type(text, text === '(module) )' ? 9 : 0);
    const [what] = $('module-message').textContent.split('\n');
    expect({ rejected: [mark], moduleGo: `Line ${line}, column ${column}: ${what}`, moduleSaid: null, bytes: null, ending: 'whole', said: 'No lexical error.' }, text);
    assert.ok($('module-message').textContent.includes(`\n     --> <anon>:${line}:${column}\n`));
    assert.equal($('seen').children.findIndex((it) => it.children.some(isRejected)), line - 1);
  }
  type('(module\n  frob)');
  key('list', 'Home');
  document.revealed.length = 0;
  press('module-go');
  expect({ selection: [10, 10], active: 'text' });
  assert.deepEqual(document.revealed, ['text']);
  type('(module)');
  expect({ rejected: [], moduleGo: null, moduleMessage: null });
  // The end of a line that is cut is not in sight.
  type(`(module ${' '.repeat(6000)}`);
  assert.deepEqual([STATE.rejected(), STATE.moduleGo().startsWith('Line 1, column 6009: ')], [[], true]);
  type(`frob ${'x'.repeat(6000)}`);
  assert.equal(STATE.moduleMessage().split('\n')[3].length, 4000);
  type('x (@d (y)');
  assert.match(STATE.moduleGo(), / at byte offset 3$/);
}

// Modules that are not valid: their marks and reports, as for errors of the compiler, and their bytes.
function invalidTexts() {
  for (const [text, mark, line, column, message, size] of [
    ['(func\n  drop)', 'Keyword rejected 8 drop', 2, 3, 'type mismatch: expected an operand, found []', 25],
    ['(func (block (result i32))\n(drop))', 'RParen rejected 25 )', 1, 26, 'type mismatch: expected [i32], found []', 28],
    ['(func)\n(func (result i64))', 'Keyword rejected 8 func', 2, 2, 'type mismatch at the end of function 1: expected [i64], found []', 32],
    ['(memory 1) (memory 1)', 'Keyword rejected 12 memory', 1, 13, 'more than one memory', 15],
  ]) {
    type(text, 1);
    expect({ rejected: [mark], moduleGo: `Line ${line}, column ${column}: ${message}`, moduleSaid: `The text is a module that is not valid, whose binary form has ${size} bytes.`, ending: 'whole', said: 'No lexical error.' }, text);
    assert.ok($('module-message').textContent.startsWith(`${message}\n     --> <anon>:${line}:${column}\n`));
    assert.deepEqual([STATE.bytes().startsWith('00000000  00 61 73 6d 01 00 00 00'), $('built').hidden], [true, false]);
  }
  type('(func\n  drop)');
  press('module-go');
  expect({ selection: [8, 8], active: 'text' });
  type('(func\n  nop)');
  expect({ rejected: [], moduleGo: null, moduleMessage: null, moduleSaid: 'The text is a valid module, whose binary form has 25 bytes.' });
}

// Longer texts are compiled after a pause, and the longest are not.
async function longModules() {
  const timers = [], ended = [];
  for (const refused of [[false, true], [true]]) {
    const { compile } = Whole.prototype;
    const refusing = function (text, options) { return refused.includes(options?.validate ?? false) ? null : compile.call(this, text, options); };
    await replacing(Whole.prototype, 'compile', refusing, () => type('(func)'));
    expect({ moduleSaid: 'There is no memory to compile the text.', bytes: null, rejected: [] });
  }
  await replacing(globalThis, 'setTimeout', (call, milliseconds) => timers.push({ call, milliseconds }), () => replacing(globalThis, 'clearTimeout', (timer) => ended.push(timer), () => {
    type(`x${' '.repeat((1 << 16) - 1)}`);
    assert.deepEqual([timers.length, STATE.rejected().length], [0, 1]);
    type(`x${' '.repeat(1 << 16)}`);
    expect({ moduleSaid: 'The text is compiled after a pause.', rejected: [], moduleGo: null });
    assert.equal(timers[0].milliseconds, 300);
    timers[0].call();
    assert.deepEqual([STATE.moduleSaid(), STATE.rejected().length], [null, 1]);
    type(' '.repeat((1 << 16) + 1));
    expect({ rejected: [] });
    assert.equal(ended.at(-1), 1);
    timers[1].call();
    expect({ moduleSaid: 'The text is a valid module, whose binary form has 8 bytes.' });
  }));
  for (const [size, said] of [[1 << 20, 'The text is compiled after a pause.'], [(1 << 20) + 1, 'A text of more than a megabyte is not compiled.']]) {
    await drop(' '.repeat(size));
    for (let i = 0; i < 100 && STATE.ending() === 'unread'; i += 1) await pause();
    expect({ moduleSaid: said, bytes: null });
  }
  type('(module)');
  expect({ moduleSaid: 'The text is a valid module, whose binary form has 8 bytes.' });
}

// A worker that records what is posted to it, and whose replies the test posts.
const workers = [];
class Recorded {
  posted = [];
  isTerminated = false;
  constructor(...given) {
    this.given = given;
    workers.push(this);
  }
  postMessage(data) { this.posted.push(data); }
  terminate() { this.isTerminated = true; }
  async reply(data) {
    this.onmessage({ data });
    await pause();
  }
}

const RUN = '(module (memory (export "m") 1) (func (export "f") (param i32 i64) (result i32) i32.const 0) (func (export "g\\n")) (func (export "v") (param v128)))';
const NOT_RUN = { ran: null, fields: null, isCalled: false, results: null };

async function running() {
  globalThis.Worker = Recorded;
  type(RUN);
  expect(NOT_RUN);
  press('run');
  expect({ ...NOT_RUN, ran: 'The module is being compiled by the browser.' });
  const [worker] = workers, [{ task, bytes }] = worker.posted;
  assert.deepEqual([worker.given, task, [...bytes.slice(0, 4)]], [['runner.js', { type: 'module' }], 'start', [0, 97, 115, 109]]);
  await worker.reply({ isValid: true, isStarted: true });
  expect({ ran: 'The module is instantiated.', isCalled: true, results: null, menu: ['f', 'g\u21b5'], inputs: ['i32 Argument 1, i32: 0 null', 'i64 Argument 2, i64: 0 null'], fields: ['(export "m" (memory 1))', '(export "f" (func (param i32 i64) (result i32)))', '(export "g\\n" (func))', '(export "v" (func (param v128)))'] });
  await calls(worker);
  await endings(worker);
}

async function calls(worker) {
  const inputs = () => $('arguments').children.map(inputOf);
  const submit = async (reply) => {
    assert.equal($('call').send('submit').isPrevented, true);
    if (reply) await worker.reply(reply);
  };
  inputs()[0].value = '-1';
  inputs()[1].value = '0x10';
  await submit();
  expect({ ran: 'The function is running.' });
  assert.deepEqual(worker.posted.at(-1), { task: 'call', name: 'f', given: [-1, 16n] });
  // Another call waits for the reply.
  await submit({ results: ['7'] });
  expect({ ran: null, results: 'f(-1, 16) = 7', inputs: ['i32 Argument 1, i32: -1 false', 'i64 Argument 2, i64: 0x10 false'] });
  assert.equal(worker.posted.length, 2);
  await submit({ error: 'RuntimeError: unreachable' });
  expect({ results: 'f(-1, 16) = 7\nf(-1, 16): RuntimeError: unreachable' });
  inputs()[1].value = 'x';
  await submit();
  expect({ ran: 'Argument 2 is not an i64.', inputs: ['i32 Argument 1, i32: -1 false', 'i64 Argument 2, i64: x true'] });
  assert.deepEqual([document.activeElement === inputs()[1], worker.posted.length], [true, 3]);
  inputs()[0].value = '';
  await submit();
  expect({ ran: 'Argument 1 is not an i32.', inputs: ['i32 Argument 1, i32:  true', 'i64 Argument 2, i64: x false'] });
  $('callee').selectedIndex = 1;
  $('callee').send('change');
  expect({ inputs: [] });
  await submit({ results: [] });
  assert.deepEqual([worker.posted.at(-1), STATE.results().split('\n').at(-1)], [{ task: 'call', name: 'g\n', given: [] }, 'g\u21b5() returned no value']);
  $('results').scrollHeight = 500;
  await submit({ results: ['1', 'null'] });
  assert.equal($('results').scrollTop, 500);
  assert.equal(STATE.results().split('\n').at(-1), 'g\u21b5() = 1, null');
  for (let i = 0; i < 97; i += 1) await submit({ results: [String(i)] });
  assert.deepEqual([STATE.results().split('\n').length, STATE.results().split('\n').at(-1), STATE.results().split('\n')[0]], [100, 'g\u21b5() = 96', 'f(-1, 16): RuntimeError: unreachable']);
}

// The ends of an instance: after the time limit, by another one, by a change of the text.
async function endings(worker) {
  const timers = [];
  const late = async (event, id) => {
    await replacing(globalThis, 'setTimeout', (call, milliseconds) => timers.push({ call, milliseconds }), () => $(id).send(event));
    assert.equal(timers.at(-1).milliseconds, 5000);
    timers.at(-1).call();
    await pause();
  };
  document.activeElement = $('call');
  await late('submit', 'call');
  expect({ ran: 'The instance has ended. Run the module again for another one.', isCalled: false, active: 'run' });
  assert.deepEqual([worker.isTerminated, STATE.results().split('\n').at(-1)], [true, 'g\u21b5() was stopped after 5 s']);
  await late('click', 'run');
  expect({ ...NOT_RUN, ran: 'The module was stopped after 5 s.' });
  assert.equal(workers.length, 2);
  press('run');
  press('run');
  assert.deepEqual([workers.length, workers[2].isTerminated, workers[3].isTerminated], [4, true, false]);
  await workers[3].reply({ isValid: true, isStarted: true });
  expect({ isCalled: true, results: null });
  $('callee').selectedIndex = 1;
  $('call').send('submit');
  await workers[3].reply({ results: [] });
  expect({ results: 'g\u21b5() returned no value' });
  $('call').send('submit');
  type(`${RUN} `);
  await pause();
  expect(NOT_RUN);
  assert.equal(workers[3].isTerminated, true);
}

// Modules that are not instantiated, and lists that are long.
async function notRun() {
  const run = async (text, reply) => {
    type(text);
    press('run');
    await workers.at(-1).reply(reply);
  };
  await run('(func (result i32))', { error: 'CompileError: no value' });
  expect({ ...NOT_RUN, ran: 'The browser rejects the module: CompileError: no value' });
  await run('(import "a" "f" (func)) (func (export "g"))', { isValid: true, isStarted: false });
  expect({ ...NOT_RUN, ran: 'The module has imports, so it is not instantiated.', fields: ['(import "a" "f" (func))', '(export "g" (func))'] });
  await run('(func unreachable) (start 0) (export "f" (func 0))', { isValid: true, isStarted: false, error: 'RuntimeError: unreachable' });
  expect({ ...NOT_RUN, ran: 'The module could not be instantiated: RuntimeError: unreachable', fields: ['(export "f" (func))'] });
  await run('(module)', { isValid: true, isStarted: true });
  expect({ ...NOT_RUN, ran: 'The module is instantiated. It exports no function of numbers.', menu: [], inputs: [] });
  await run('(func (export "f"))', { isValid: true, isStarted: true });
  expect({ ran: 'The module is instantiated.', menu: ['f'] });
  for (const [count, listed, last] of [[100, 100, '(export "e99" (func))'], [101, 101, 'and 1 more'], [1002, 101, 'and 902 more']]) {
    await run(`(func $f) ${Array.from({ length: count }, (_, i) => `(export "e${i}" (func $f))`).join(' ')}`, { isValid: true, isStarted: true });
    assert.deepEqual([STATE.fields().length, STATE.fields().at(-1), STATE.menu().length], [listed, last, Math.min(count, 1000)]);
  }
}

async function saving() {
  const made = [], withdrawn = [], timers = [];
  type('(module)');
  await replacing(URL, 'createObjectURL', (blob) => `blob:${made.push(blob)}`, () => replacing(URL, 'revokeObjectURL', (address) => withdrawn.push(address), () => replacing(globalThis, 'setTimeout', (call, milliseconds) => timers.push({ call, milliseconds }), () => {
    press('save');
    const [link] = document.clicked;
    assert.deepEqual([link.tagName, link.href, link.download, made[0].type, withdrawn, timers.length, timers[0].milliseconds], ['a', 'blob:1', 'module.wasm', 'application/wasm', [], 1, 1000]);
    timers[0].call();
    assert.deepEqual(withdrawn, ['blob:1']);
  })));
  assert.deepEqual(new Uint8Array(await made[0].arrayBuffer()), Uint8Array.of(0, 97, 115, 109, 1, 0, 0, 0));
}

const UNFORMATTED = 'A text that is only shown is not formatted.';

async function formatting() {
  const text = '(module\n(func ( param i32 )) ;; \u00e9\n)\n', laid = '(module\n  (func (param i32)) ;; \u00e9\n)\n';
  for (const lineEnd of ['\n', '\r\n']) {
    await drop(text.replaceAll('\n', lineEnd));
    select(text.indexOf('param') + 1);
    document.activeElement = $('format');
    document.commands.length = 0;
    press('format');
    const place = laid.indexOf('param') + 1;
    expect({ value: laid, formatted: 'The text is formatted.', active: 'text', selection: [place, place] });
    assert.deepEqual(document.commands, ['insertHTML']);
    assert.equal($('seen').textContent, laid.replaceAll('\n', lineEnd));
    press('format');
    expect({ formatted: 'The text is formatted already.' });
  }
  for (const [given, wanted, commands] of [['( "a&amp;<b>&#60;" )', '("a&amp;<b>&#60;")\n', ['insertHTML']], ['\t\n', '', ['delete']], ['( a ;; \0\n)', '(a ;; \0\n)\n', ['insertText']]]) {
    type(given);
    document.commands.length = 0;
    press('format');
    expect({ value: wanted }, given);
    assert.deepEqual(document.commands, commands);
  }
  document.isObedient = false;
  type('( a )');
  document.commands.length = 0;
  press('format');
  expect({ value: '( a )', formatted: 'The browser refuses to change the text.' });
  assert.deepEqual(document.commands, ['insertHTML', 'insertText']);
  document.isObedient = true;
  await replacing(Whole.prototype, 'layOut', () => null, () => press('format'));
  expect({ value: '( a )', formatted: 'There is no memory to format the text.' });
  for (const [given, answer] of [['( a "', 'A text with a fault is not formatted.'], ['(a\n'.repeat(25_000), 'Formatted it would have more than a megabyte, and is left as it is.'], ['', 'The text is formatted already.']]) {
    type(given);
    press('format');
    expect({ formatted: answer, value: given });
  }
  // The largest text.
  const longest = 'x'.repeat((1 << 20) - 3);
  type(`"${longest}"`);
  press('format');
  expect({ formatted: 'The text is formatted.', value: `"${longest}"\n` });
  await drop('( a )\r');
  press('format');
  expect({ formatted: UNFORMATTED });
  type('a');
  expect({ formatted: null });
}

async function links() {
  type('(a "\u{1f600}" (@n x))\n');
  for (const id of ['allow', 'counts']) $(id).checked = true;
  $('names').value = 'n o';
  press('share');
  for (let i = 0; i < 100 && !$('shared').textContent; i += 1) await pause();
  expect({ shared: 'The link is copied.' });
  assert.deepEqual([copied, /^#text=[\w-]+&allow=1&counts=1&names=n\+o$/.test(location.hash)], [[`page${location.hash}`], true]);
  for (const id of ['allow', 'counts']) $(id).checked = false;
  $('names').value = '';
  type('x');
  ofWindow.hashchange();
  for (let i = 0; i < 100 && STATE.value() === 'x'; i += 1) await pause();
  expect({ value: '(a "\u{1f600}" (@n x))\n', counted: '8 tokens of 12 count.' });
  assert.deepEqual(['allow', 'strict', 'counts'].map((id) => $(id).checked).concat($('names').value), [true, false, true, 'n o']);
  isCopied = false;
  for (const [value, shared] of [[undefined, 'The link is the address of this page now.'], [{ clipboard }, 'The link is the address of this page now.']]) {
    globalThis.navigator = value ?? {};
    tell('shared');
    press('share');
    for (let i = 0; i < 100 && !$('shared').textContent; i += 1) await pause();
    expect({ shared });
  }
  location.hash = '#text=x';
  ofWindow.hashchange();
  for (let i = 0; i < 100 && !$('said').textContent.startsWith('The link'); i += 1) await pause();
  assert.match(STATE.said(), /^The link could not be read: /);
  expect({ value: '(a "\u{1f600}" (@n x))\n', wrong: 'wrong' });
  location.hash = '';
  ofWindow.hashchange();
  await pause();
  expect({ value: '(a "\u{1f600}" (@n x))\n' });
  for (const id of ['allow', 'counts']) check(id, false);
}

const tell = (id) => { $(id).textContent = ''; };

async function longLinks() {
  type(Array.from({ length: 60_000 }, (_, i) => `${(i * i * 7919) % 1_000_003}`).join(' '));
  tell('shared');
  press('share');
  for (let i = 0; i < 200 && !$('shared').textContent; i += 1) await pause();
  expect({ shared: 'The text is too long for a link.' });
}

// Replaces a method while a function is called.
async function replacing(owner, name, method, call) {
  const before = owner[name];
  owner[name] = method;
  try {
    await call();
  } finally {
    owner[name] = before;
  }
}

const refuse = () => { throw new RangeError('refused'); };

// A page that cannot load the module says so.
async function loading() {
  assert.equal(document.body.dataset.ready, 'yes');
  await replacing(globalThis, 'fetch', async () => refuse(), async () => {
    await import('./page.js?again');
    for (let i = 0; i < 100 && !$('said').textContent.startsWith('The lexer'); i += 1) await pause();
  });
  expect({ said: 'The lexer could not be loaded: RangeError: refused', wrong: 'wrong' });
  // The module of Rattle's compiler neither formats nor writes binary modules.
  document.body.dataset.ready = 'no';
  location.hash = '#text=x';
  await replacing(WebAssembly.Module, 'exports', () => [], async () => {
    await import('./page.js?unserved');
    for (let i = 0; i < 100 && document.body.dataset.ready !== 'yes'; i += 1) await pause();
  });
  // A link that cannot be read leaves an example.
  expect({ value: EXAMPLES[$('example').selectedIndex].text, wrong: 'wrong' });
  assert.match(STATE.said(), /^The link could not be read: /);
  type('(module)');
  expect({ ending: 'whole', bytes: null, moduleSaid: null });
  assert.equal($('format').hidden, true);
  await flagsOfWorkers();
}

// The workers lex by the flags that are set.
async function flagsOfWorkers() {
  const workers = [];
  globalThis.navigator = { hardwareConcurrency: 2 };
  globalThis.Worker = class {
    posted = [];
    constructor() { workers.push(this); }
    postMessage(data) { this.posted.push(data); }
  };
  step = 10;
  await drop('x\n'.repeat(1_500_000));
  const seen = [workers[0]?.posted.at(-1).flags];
  check('strict', true);
  workers[0]?.onmessage({ data: null });
  seen.push(workers[0]?.posted.at(-1).flags);
  check('strict', false);
  step = 0;
  assert.deepEqual(seen, [{ allow: false, strict: false }, { allow: false, strict: true }]);
}

const checks = [opening, typing, theList, theListByKeys, shownTexts, clicks, selections, lineEnds, scrolling, settings, faults, files, counted, binaries, rejectedTexts, invalidTexts, longModules, running, notRun, saving, formatting, links, longLinks, longLines, partsOfTexts, loading];
for (const it of checks) await it();
console.log(`paged.mjs: ${checks.length} checks passed`);
process.exit(0);
