// The page: a source text in colors, its tokens, and a cursor that both share.
import { Ahead } from './ahead.js';
import { Columns } from './columns.js';
import { whatCounts } from './counts.js';
import { $, cutLines, element, plural, summaryOf, tell, visible } from './dom.js';
import { changeOf, placeInLayout, Places } from './edits.js';
import { EXAMPLES } from './examples.js';
import { fragmentOf, givenBy } from './link.js';
import { ModulePart } from './module.js';
import { Sight } from './sight.js';
import { Lexer, decoder } from './wat-lex/lexer.js';
import { Reader } from './wat-lex/reader.js';
import { Tokens } from './wat-lex/tokens.js';
import { Whole } from './wat-lex/whole.js';

// In bytes: the largest text that can be edited, and the longest parts of a line, and of a token in the list, that are drawn.
const EDITABLE = 1 << 20;
const LONGEST = 2000;
const LISTED = 120;
// In bytes: the largest text that is compiled after each change at once. A longer one is compiled after a pause, in milliseconds.
const SHORT = 1 << 16;
const PAUSE = 300;
// In milliseconds: the time for which a text is lexed before the visible part is drawn, and then between other tasks.
const AT_ONCE = 8;
const encoder = new TextEncoder();
const textOf = (from, to) => decoder.decode(bytes.subarray(from, to));

let reader, ahead, whole, modulePart, view, list, columns;
let bytes, lines, tokens, cursor = 0;
// The significant tokens, if only these are listed.
let counted = null;
// The byte offset of the compiler's error, or null.
let rejected = null;
// The line end that each LF of the text area represents, or null if the text area is not in use.
let lineEnd = '\n';
// The text area's text when it was last read, and the conversion of its positions to byte offsets.
let typed = '', places = new Places();
// Whether the cursor has not moved since a text was opened.
let isUntouched = false;

// ---- drawing

function caret() {
  const it = element('span', 'caret');
  it.setAttribute('aria-hidden', 'true');
  return it;
}

// Returns `true` if the cursor is drawn at an offset. The text area draws its own.
const isCaretAt = (place) => lineEnd === null && cursor === place;

// The spans of a line: consecutive ranges of bytes, each with a class and perhaps a mark, and the cursor between them.
class Pieces {
  all = [];

  put(className, from, to, mark = '') {
    if (from > to || (from === to && !mark)) return;
    if (isCaretAt(from) && from < bytes.length) this.putCaret();
    const cut = lineEnd === null && cursor > from && cursor < to ? cursor : to;
    this.all.push({ className, from, to: cut, mark });
    if (cut < to) this.put(className, cut, to);
  }

  putCaret() { this.all.push({ className: 'caret', from: cursor, to: cursor, mark: '' }); }

  // Adds the character at which the error is reported, and returns its end. A mark represents a line end, or the end of the text.
  putFault(to) {
    const at = reader.offset;
    const end = Math.min(lines.on(at + 1), to);
    const mark = at === bytes.length ? '▏' : bytes[at] === 10 || bytes[at] === 13 ? '↵' : '';
    this.put('fault', at, end, mark);
    return end;
  }
}

// Returns the range of a line's bytes to draw, and its position. A long line is cut: in the text area to the bytes in sight, otherwise to those
// around the cursor.
function partOf(line, from, to) {
  if (to - from <= LONGEST) return { from, to };
  if (lineEnd !== null) return columns.part(bytes, from, to, view.left - view.width / 2, view.left + 1.5 * view.width);
  const isHere = cursor >= from && cursor < to;
  const middle = isHere ? cursor : reader.ending === 'faulty' && reader.line === line ? reader.offset : from;
  const first = lines.back(Math.max(from, Math.min(middle - LONGEST / 2, to - LONGEST)));
  return { from: first, to: lines.on(Math.min(to, first + LONGEST)) };
}

// Returns the class of a token: its kind, or `skipped` if it is not significant, whether the compiler rejects it, and whether the cursor is at it or at
// its parenthesis.
function classOf(i, held, matched) {
  const isRejected = rejected !== null && tokens.at(rejected) === i;
  const kind = `${counted && !isListed(i) ? 'skipped' : tokens.kind(i)}${isRejected ? ' rejected' : ''}`;
  if (matched.includes(i)) return `${kind} ${matched.length > 1 ? 'match' : 'alone'}`;
  return i === held ? `${kind} held` : kind;
}

function piecesOf(line, part, held, matched) {
  const pieces = new Pieces();
  let at = part.from;
  for (let i = tokens.at(at); i < tokens.count && at < part.to; i += 1) {
    const end = Math.min(tokens.end(i), part.to);
    pieces.put(classOf(i, held, matched), at, end);
    at = end;
  }
  if (reader.ending === 'faulty' && reader.line === line && reader.offset >= at && (reader.offset < part.to || part.to === bytes.length)) {
    pieces.put('unread', at, reader.offset);
    at = pieces.putFault(part.to);
  }
  pieces.put('unread', at, part.to);
  if (rejected === bytes.length && part.to === rejected && line === lines.count - 1) pieces.put('rejected', rejected, rejected, '▏');
  if (isCaretAt(bytes.length) && line === lines.count - 1) pieces.putCaret();
  return pieces.all;
}

function drawPiece({ className, from, to, mark }) {
  if (className === 'caret') return caret();
  const it = element('span', className, textOf(from, to));
  it.dataset.from = from;
  if (className === 'fault') it.id = className;
  if (mark) it.dataset.mark = mark;
  return it;
}

// The drawn lines, by their contents. A line with the contents of an earlier one reuses its element, since browsers take long to create elements.
class DrawnLines {
  #before = new Map();
  #now = new Map();

  begin() {
    this.#before = this.#now;
    this.#now = new Map();
  }

  line(line, held, matched) {
    const start = lines.start(line), end = lines.end(line);
    const part = partOf(line, start, end);
    const isCut = lineEnd === null ? [part.from > start, part.to < end] : [false, false];
    const pieces = piecesOf(line, part, held, matched);
    const shapes = pieces.map((it) => `${it.className} ${it.to - part.from} ${it.mark}`);
    const key = [textOf(part.from, part.to), part.stop, part.beyond, ...isCut, ...shapes].join('\0');
    const drawn = this.#before.get(key)?.shift() ?? { from: part.from, element: this.#draw(part, isCut, pieces) };
    if (drawn.from !== part.from) this.#move(drawn, part.from, pieces);
    if (!this.#now.has(key)) this.#now.set(key, []);
    this.#now.get(key).push(drawn);
    return drawn.element;
  }

  #draw(part, [isCutBefore, isCutBehind], pieces) {
    const parent = element('div', 'line');
    // The browser counts tab stops from the end of the padding.
    if (part.stop > 0) parent.style.paddingLeft = `${part.stop}px`;
    if (part.beyond > 0) parent.style.textIndent = `${part.beyond}px`;
    if (isCutBefore) parent.append('…');
    parent.append(...pieces.map(drawPiece));
    if (isCutBehind) parent.append('…\n');
    return parent;
  }

  #move(drawn, from, pieces) {
    drawn.from = from;
    for (const [i, it] of [...drawn.element.children].entries()) if (it.dataset.from) it.dataset.from = pieces[i].from;
  }
}

const drawnLines = new DrawnLines();

function drawView(first, last, offset) {
  const held = tokens.held(cursor), matched = tokens.pair(cursor);
  const rows = Array.from({ length: last - first }, (_, i) => first + i);
  const numbers = $('numbers').firstElementChild;
  numbers.style.top = `${offset}px`;
  numbers.textContent = rows.map((line) => line + 1).join('\n');
  drawnLines.begin();
  return rows.map((line) => drawnLines.line(line, held, matched));
}

// ---- the list of all tokens, or of the significant ones

const listedCount = () => (counted ? counted.numbers.length : tokens.count);
const listed = (place) => (counted ? counted.numbers[place] : place);

// Returns the index in the list of a token, or of the nearest listed one after it.
function placeOf(token) {
  if (!counted) return token;
  let low = 0, high = counted.numbers.length;
  while (low < high) {
    const middle = (low + high) >>> 1;
    if (counted.numbers[middle] >= token) high = middle; else low = middle + 1;
  }
  return low;
}

const isListed = (token) => listed(placeOf(token)) === token;

function drawList(first, last) {
  const held = tokens.held(cursor);
  return Array.from({ length: last - first }, (_, i) => {
    const token = listed(first + i);
    const option = element('div', '');
    option.setAttribute('role', 'option');
    option.id = `token-${token}`;
    option.setAttribute('aria-selected', token === held);
    option.setAttribute('aria-setsize', listedCount());
    option.setAttribute('aria-posinset', first + i + 1);
    const start = tokens.start(token), end = tokens.end(token), kind = tokens.kind(token);
    const text = visible(textOf(start, lines.on(Math.min(end, start + LISTED))));
    option.append(element('span', 'place', `${start}..${end}`), element('span', `kind ${kind}`, kind), element('span', 'token', text));
    return option;
  });
}

// ---- the cursor

// Scrolls the list to the cursor's token, or to the nearest one, and prints the cursor's location.
function follow() {
  const held = tokens.held(cursor);
  if (listedCount() > 0) list.revealSoon(Math.min(placeOf(tokens.at(cursor)), listedCount() - 1));
  if (held >= 0 && isListed(held)) list.box.setAttribute('aria-activedescendant', `token-${held}`);
  else list.box.removeAttribute('aria-activedescendant');
  const line = lines.at(cursor);
  const before = textOf(lines.start(line), cursor);
  $('place').textContent = `Line ${line + 1}, character ${[...before].length + 1}, byte ${cursor}`;
}

// Scrolls the text to the cursor.
function reveal() {
  const line = lines.at(cursor);
  view.reveal(line);
  if (lineEnd !== null) view.revealAcross(columns.reach(bytes, lines.start(line), cursor, Infinity).x);
}

// Scrolls sideways to the drawn cursor.
function revealCaret() {
  const left = view.seen.querySelector('.caret')?.offsetLeft;
  if (left !== undefined) view.revealAcross(left);
}

function moveTo(offset, from) {
  if (from !== 'file') isUntouched = false;
  cursor = lines.back(offset);
  if (from !== 'text') reveal();
  view.redraw();
  revealCaret();
  follow();
  list.redraw();
  if (from === 'text' || lineEnd === null) return;
  const place = textOf(0, cursor).replaceAll(lineEnd, '\n').length;
  $('text').setSelectionRange(place, place);
}

function onViewKey(event) {
  const line = lines.at(cursor);
  const column = cursor - lines.start(line);
  const page = Math.max(1, Math.floor(view.height / Sight.HEIGHT) - 1);
  const last = (of) => (of + 1 < lines.count ? lines.end(of) - 1 : bytes.length);
  const upOrDown = (by) => {
    const to = Math.max(0, Math.min(lines.count - 1, line + by));
    return Math.min(lines.start(to) + column, last(to));
  };
  const places = {
    ArrowLeft: () => lines.back(cursor - 1),
    ArrowRight: () => lines.on(cursor + 1),
    ArrowUp: () => upOrDown(-1),
    ArrowDown: () => upOrDown(1),
    PageUp: () => upOrDown(-page),
    PageDown: () => upOrDown(page),
    Home: () => (event.ctrlKey ? 0 : lines.start(line)),
    End: () => (event.ctrlKey ? bytes.length : last(line)),
  };
  if (lineEnd !== null || !(event.key in places)) return;
  event.preventDefault();
  moveTo(places[event.key](), 'view');
}

function onViewClick(event) {
  const spot = document.caretPositionFromPoint
    ? document.caretPositionFromPoint(event.clientX, event.clientY)
    : document.caretRangeFromPoint(event.clientX, event.clientY);
  const node = spot?.offsetNode ?? spot?.startContainer;
  const at = node?.nodeType === Node.TEXT_NODE ? node.parentElement : node;
  const span = at?.closest?.('[data-from]');
  // A click to the right of a line selects the line's end.
  const last = [...(at?.closest?.('.line')?.querySelectorAll('[data-from]') ?? [])].at(-1);
  if (!span && !last) return;
  const before = span ? span.textContent.slice(0, spot.offset ?? spot.startOffset) : last.textContent.replace(/\r?\n$/, '');
  moveTo(Number((span ?? last).dataset.from) + encoder.encode(before).length, 'view');
}

function onListKey(event) {
  const held = placeOf(Math.min(tokens.at(cursor), tokens.count));
  const page = Math.max(1, Math.floor(list.height / Sight.HEIGHT) - 1);
  const last = listedCount() - 1;
  const places = { ArrowUp: held - 1, ArrowDown: held + 1, PageUp: held - page, PageDown: held + page, Home: 0, End: last };
  if (!(event.key in places) || last < 0) return;
  event.preventDefault();
  moveTo(tokens.start(listed(Math.max(0, Math.min(last, places[event.key])))), 'list');
}

function onListClick(event) {
  const option = event.target.closest('[role=option]');
  if (option) moveTo(tokens.start(Number(option.id.slice('token-'.length))), 'list');
}

// ---- reports

function say(text, isWrong = false) {
  tell('go', '');
  tell('said', text);
  $('state').className = isWrong ? 'wrong' : '';
}

function sayFault() {
  tell('said', '');
  tell('go', summaryOf(reader.message));
}

function sayEnding() {
  if (reader.ending === 'faulty') sayFault();
  else if (reader.ending === 'whole') say('No lexical error.');
  else if (reader.ending === null) say('The text is being read.');
  else if (reader.ending === 'not UTF-8') say(`The text is not UTF-8 from byte ${reader.offset} on.`, true);
  else say(`The text is ${reader.ending}.`, true);
  tell('size', `${plural(tokens.count, 'token')}, ${plural(bytes.length, 'byte')}.`);
  tell('message', reader.ending === 'faulty' ? cutLines(reader.message, 2 * LONGEST) : '');
  document.body.dataset.ending = reader.ending ?? 'unread';
}

function sayCounted() {
  const wrong = counted?.wrong;
  const more = wrong ? ` Then: ${wrong.what} at byte offset ${wrong.offset}.` : '';
  tell('counted', counted ? `${plural(listedCount(), 'token')} of ${tokens.count.toLocaleString('en')} count.${more}` : '');
}

// ---- the text

const registered = () => new Set($('names').value.split(/\s+/).filter(Boolean));

function count() {
  counted = $('counts').checked ? whatCounts(tokens, bytes, registered()) : null;
  list.set(listedCount());
  sayCounted();
}

function showCounts() {
  count();
  follow();
  view.redraw();
  list.redraw();
}

// Compiles a text without a lexical error, by the standard's rules whatever the switches, and shows the binary module or the compiler's error. Validates
// the module, and shows its first error too.
const compiling = {
  timer: null,

  begin() {
    clearTimeout(this.timer);
    rejected = null;
    if (!whole.isServed || reader.ending !== 'whole') modulePart.show(null);
    else if (bytes.length > EDITABLE) modulePart.show(null, 'A text of more than a megabyte is not compiled.');
    else if (bytes.length <= SHORT) this.end();
    else {
      modulePart.show(null, 'The text is compiled after a pause.');
      this.timer = setTimeout(() => {
        this.end();
        view.redraw();
      }, PAUSE);
    }
  },

  end() {
    const compiled = whole.compile(bytes), checked = compiled?.bytes ? whole.compile(bytes, { validate: true }) : compiled;
    rejected = checked?.error?.offset ?? null;
    modulePart.show(checked && { ...compiled, error: checked.error }, checked ? '' : 'There is no memory to compile the text.', 2 * LONGEST);
  },
};

const flags = () => ({ allow: $('allow').checked, strict: $('strict').checked });

// Lexes on for `AT_ONCE` milliseconds.
function readOn() {
  reader.readOn(performance.now() + AT_ONCE);
  ({ bytes, lines } = reader);
  tokens = new Tokens(reader);
}

// Draws the visible part of the text and of the list.
function draw() {
  $('numbers').style.width = `${Math.max(3, String(lines.count).length) + 2}ch`;
  view.set(lines.count);
  count();
  sayEnding();
  compiling.begin();
  follow();
  view.redraw();
  list.redraw();
}

// Draws a text that is lexed, whole or in part, and then lexes the rest. Measures the time from the start of a change until the visible part is
// drawn, and until the whole text is lexed and drawn.
function show(place, start) {
  cursor = lines.back(place);
  tell('formatted', '');
  draw();
  performance.measure('show', { start });
  rest.begin(start);
}

// Lexes the rest of a text between the browser's other tasks.
const rest = {
  channel: new MessageChannel(),
  start: 0,
  isAwaited: false,

  begin(start) {
    this.start = start;
    if (reader.ending !== null) this.end(); else this.await();
  },

  await() {
    if (!this.isAwaited) this.channel.port2.postMessage(null);
    this.isAwaited = true;
  },

  // A change may have lexed the text to its end since the message was posted.
  goOn() {
    this.isAwaited = false;
    if (reader.ending !== null) return;
    readOn();
    if (reader.ending !== null) {
      draw();
      this.end();
    } else {
      if ($('seen').querySelector('.unread')) view.redraw();
      this.await();
    }
  },

  end() {
    performance.measure('read', { start: this.start });
    if (isUntouched && reader.ending === 'faulty') moveTo(reader.offset, 'file');
    isUntouched = false;
  },
};

// Returns the line end of a text that a text area can represent, or null if it has several kinds of line ends.
function lineEndOf(text) {
  const returns = text.split('\r').length - 1;
  if (returns === 0) return '\n';
  const feeds = text.split('\n').length - 1;
  return returns === feeds && text.split('\r\n').length - 1 === feeds ? '\r\n' : null;
}

// Returns the reason why a text cannot be edited, or an empty string.
function refusal(given) {
  if (given.length > EDITABLE) return 'A text of more than a megabyte is shown, and not edited.';
  if (reader.ending === 'not UTF-8') return 'Only a text in UTF-8 can be edited here.';
  return lineEndOf(decoder.decode(given)) ? '' : 'A text with line ends of two kinds is shown, and not edited.';
}

// Sets the text of the text area, or uses the view instead, which then scrolls and takes the focus.
function lend(given) {
  const note = refusal(given);
  const text = note ? '' : decoder.decode(given);
  lineEnd = note ? null : lineEndOf(text);
  $('text').hidden = Boolean(note);
  $('text').value = text;
  typed = $('text').value;
  places = new Places();
  tell('note', note && `${note} Arrow keys, Home, End and the page keys move the cursor, and so does a click.`);
  const said = { tabindex: '0', role: 'group', 'aria-labelledby': 'text-name', 'aria-describedby': 'note' };
  for (const [name, value] of Object.entries(said)) if (note) $('view').setAttribute(name, value); else $('view').removeAttribute(name);
  $('view').ariaHidden = note ? null : 'true';
  $('view').classList.toggle('fixed', Boolean(note));
  view.use($(note ? 'view' : 'text'));
  view.restart();
}

// Opens another text. It can be edited if the text area can represent it. The cursor moves to its error, unless the user has moved it before.
function open(given) {
  const start = performance.now();
  reader.open(given, flags());
  ahead.begin(reader, flags());
  readOn();
  lend(given);
  isUntouched = true;
  show(0, start);
  if (cursor === 0) moveTo(0, 'file');
}

function onInput() {
  const start = performance.now();
  const { value, selectionEnd } = $('text');
  const { from, to, text } = changeOf(typed, value);
  isUntouched = false;
  // The offset converted last is before the change, so the cached one stays valid.
  const end = places.byteAt(bytes, to), begin = places.byteAt(bytes, from);
  reader.change(begin, end, encoder.encode(lineEnd === '\r\n' ? text.replaceAll('\n', lineEnd) : text));
  typed = value;
  readOn();
  show(places.byteAt(bytes, selectionEnd), start);
}

function onSelect() {
  if (document.activeElement !== $('text') || lineEnd === null) return;
  const place = places.byteAt(bytes, $('text').selectionEnd);
  // After a change of the text, the cursor has moved already.
  if (place !== cursor) moveTo(place, 'text');
}

function onFlag() {
  const start = performance.now();
  reader.restart(flags());
  ahead.begin(reader, flags());
  readOn();
  show(cursor, start);
}

// ---- formatting

// Returns the reason why the text cannot be formatted, or an empty string.
function unformatted() {
  if (lineEnd === null) return 'A text that is only shown is not formatted.';
  if (reader.ending === null) return 'The text is still being read.';
  return reader.ending === 'whole' ? '' : 'A text with a fault is not formatted.';
}

// Replaces a range of the text area's text as if it was typed, so that it can be undone. Returns `true` if the browser did so. The text is inserted
// as HTML, of which a text area keeps only the plain text: Chromium inserts 10,000 lines of HTML in the time of a hundred lines of text. A text with
// a NUL is inserted as text, since HTML has none.
function retype(from, to, piece) {
  $('text').focus();
  $('text').setSelectionRange(from, to);
  if (!piece) return document.execCommand('delete');
  const html = piece.replace(/[&<]/g, (one) => `&#${one.charCodeAt(0)};`);
  return (!piece.includes('\0') && document.execCommand('insertHTML', false, html)) || document.execCommand('insertText', false, piece);
}

// Replaces the text by the formatted text. The cursor stays at its token, and CR LF line ends stay.
function format() {
  const why = unformatted();
  if (why) return tell('formatted', why);
  const laidOut = whole.layOut(bytes, flags());
  if (laidOut === null) return tell('formatted', 'There is no memory to format the text.');
  if (laidOut.length > EDITABLE) return tell('formatted', 'Formatted it would have more than a megabyte, and is left as it is.');
  const typedAs = (given) => decoder.decode(given).replaceAll('\r\n', '\n');
  const { from, to, text } = changeOf(typed, typedAs(laidOut));
  if (from === to && !text) return tell('formatted', 'The text is formatted already.');
  const place = typedAs(laidOut.subarray(0, placeInLayout(tokens, laidOut, cursor))).length;
  if (!retype(from, to, text)) return tell('formatted', 'The browser refuses to change the text.');
  moveTo(places.byteAt(bytes, place), 'formatted');
  return tell('formatted', 'The text is formatted.');
}

// Moves the cursor to a reported error.
function goTo(offset) {
  moveTo(offset, 'report');
  view.box.focus({ preventScroll: true });
  view.box.scrollIntoView({ block: 'nearest' });
}

async function openFile(file) {
  if (!file) return;
  let given;
  try {
    given = new Uint8Array(await file.arrayBuffer());
    open(given);
  } catch (error) {
    // A text for which memory ran out may have overwritten the previous one.
    if (given) open(new Uint8Array());
    say(`The file could not be read: ${error}`, true);
  }
}

async function share() {
  const settings = { bytes, allow: $('allow').checked, strict: $('strict').checked, counts: $('counts').checked, names: $('names').value };
  const fragment = await fragmentOf(settings);
  if (fragment === null) return tell('shared', 'The text is too long for a link.');
  history.replaceState(null, '', `#${fragment}`);
  const isCopied = await navigator.clipboard?.writeText(location.href).then(() => true, () => false);
  return tell('shared', isCopied ? 'The link is copied.' : 'The link is the address of this page now.');
}

const openExample = () => open(encoder.encode(EXAMPLES[$('example').selectedIndex].text));

function openGiven(given) {
  for (const id of ['allow', 'strict', 'counts']) $(id).checked = given[id];
  $('names').value = given.names;
  open(given.bytes);
}

// Opens the text of the page's address. If there is none or it cannot be read, keeps the page's text, or opens the first example.
async function openLink() {
  try {
    const given = await givenBy(location.hash);
    if (given) openGiven(given); else if (!bytes) openExample();
  } catch (error) {
    if (!bytes) openExample();
    say(`The link could not be read: ${error}`, true);
  }
}

function listen() {
  $('text').addEventListener('input', onInput);
  document.addEventListener('selectionchange', onSelect);
  for (const id of ['allow', 'strict']) $(id).addEventListener('change', onFlag);
  $('counts').addEventListener('change', showCounts);
  $('names').addEventListener('input', showCounts);
  $('example').addEventListener('change', openExample);
  rest.channel.port1.onmessage = () => rest.goOn();
  $('format').addEventListener('click', format);
  $('share').addEventListener('click', share);
  $('go').addEventListener('click', () => goTo(reader.offset));
  $('module-go').addEventListener('click', () => goTo(rejected));
  window.addEventListener('hashchange', openLink);
  $('file').addEventListener('change', () => openFile($('file').files[0]));
  document.addEventListener('dragover', (event) => event.preventDefault());
  document.addEventListener('drop', (event) => {
    event.preventDefault();
    openFile(event.dataTransfer.files[0]);
  });
  $('view').addEventListener('keydown', onViewKey);
  $('view').addEventListener('click', onViewClick);
  $('list').addEventListener('keydown', onListKey);
  $('list').addEventListener('click', onListClick);
}

// Lexes half a megabyte, which takes some milliseconds, so that the engine compiles the module for speed before the first long text is opened.
function warmUp(lexer) {
  const given = encoder.encode('  (func $add (param $a i32) (result i32) local.get 0 i32.const -0x1 i32.add) ;; "b"\n'.repeat(3000));
  lexer.bytes(given.length).set(given);
  for (let i = 0; i < 2; i += 1) lexer.tell(0, given.length, 0, given.length, {});
}

async function start() {
  const module = await WebAssembly.compile(await fetch('wat-lex/wat_lex.wasm').then((answer) => answer.arrayBuffer()));
  const lexer = new Lexer(new WebAssembly.Instance(module));
  warmUp(lexer);
  reader = new Reader(lexer);
  ahead = new Ahead(module);
  whole = new Whole(module);
  modulePart = new ModulePart();
  $('format').hidden = !whole.isServed;
  columns = new Columns(getComputedStyle($('text')));
  view = new Sight([$('text'), $('view')], $('seen'), drawView);
  list = new Sight([$('list')], $('list').querySelector('.seen'), drawList);
  $('example').append(...EXAMPLES.map(({ name }) => element('option', '', name)));
  listen();
  await openLink();
  document.body.dataset.ready = 'yes';
}

start().catch((error) => say(`The lexer could not be loaded: ${error}`, true));
