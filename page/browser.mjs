// Drives a headless Chromium over its debugging pipe, and checks the page that build.sh built.
// usage: node browser.mjs PROGRAM [FOLDER], where FOLDER is for pictures of the light and the dark page. With QUICK=1, for tools/mutants/mutate.py, it
// measures no times, checks one window, and waits for the browser at most 30 s at a time.
import assert from 'node:assert/strict';
import { spawn, spawnSync } from 'node:child_process';
import { existsSync, mkdtempSync, readFileSync, readdirSync, rmSync, writeFileSync } from 'node:fs';
import { createServer } from 'node:http';
import { tmpdir } from 'node:os';
import { extname, join } from 'node:path';
import { fileURLToPath, pathToFileURL } from 'node:url';
import { deflateRawSync } from 'node:zlib';
import { Whole } from './wat-lex/whole.js';

const [program, pictures] = process.argv.slice(2);
if (!program) throw new Error('usage: node browser.mjs PROGRAM [FOLDER]');
const here = (name) => fileURLToPath(new URL(name, import.meta.url));
const TYPES = { '.html': 'text/html', '.js': 'text/javascript', '.css': 'text/css', '.wasm': 'application/wasm' };
const isQuick = Boolean(process.env.QUICK);
const PATIENCE = isQuick ? 30_000 : 1_800_000;
const pause = (milliseconds) => new Promise((done) => setTimeout(done, milliseconds));

// Whether the module allocates, as formatted texts and binary modules need.
const { isServed } = new Whole(new WebAssembly.Module(readFileSync(here('out/wat-lex/wat_lex.wasm'))));

// The text that the server returns for the name `generated`.
let generated = null;
const server = createServer((request, response) => {
  try {
    const name = new URL(request.url, 'http://page').pathname.slice(1) || 'index.html';
    const bytes = name === 'generated' ? generated : readFileSync(here(`out/${name}`));
    response.writeHead(200, { 'content-type': TYPES[extname(request.url)] ?? 'text/html' }).end(bytes);
  } catch {
    response.writeHead(404).end();
  }
}).listen(0, '127.0.0.1');
await new Promise((done) => server.once('listening', done));
const origin = `http://127.0.0.1:${server.address().port}/`;

const room = mkdtempSync(join(tmpdir(), 'page-'));
const browser = spawn(process.env.CHROMIUM ?? 'chromium', ['--headless', '--no-sandbox', '--disable-gpu', '--disable-dev-shm-usage', '--no-first-run', `--user-data-dir=${room}/profile`, '--remote-debugging-pipe', '--window-size=1200,900', 'about:blank'], { stdio: ['ignore', 'ignore', process.env.NOISY ? 'inherit' : 'ignore', 'pipe', 'pipe'] });
const waiting = new Map(), events = [];
let last = 0, rest = '';
browser.stdio[4].setEncoding('utf8').on('data', (piece) => {
  const parts = (rest + piece).split('\0');
  rest = parts.pop();
  for (const said of parts.map((it) => JSON.parse(it))) {
    if (!said.id) { events.push(said); continue; }
    const [done, fail] = waiting.get(said.id);
    waiting.delete(said.id);
    if (said.error) fail(new Error(JSON.stringify(said.error))); else done(said.result);
  }
});
let session;
const send = (method, params = {}) => new Promise((done, fail) => {
  const late = setTimeout(() => fail(new Error(`no answer to ${method}`)), PATIENCE);
  last += 1;
  waiting.set(last, [(result) => { clearTimeout(late); done(result); }, fail]);
  browser.stdio[3].write(`${JSON.stringify({ id: last, method, params, sessionId: session })}\0`);
});

async function ask(expression) {
  const { result, exceptionDetails } = await send('Runtime.evaluate', { expression, awaitPromise: true, returnByValue: true });
  if (exceptionDetails) throw new Error(exceptionDetails.exception?.description ?? exceptionDetails.text);
  return result.value;
}

async function visit(address) {
  // A different fragment alone would not load the page again.
  await send('Page.navigate', { url: 'about:blank' });
  await send('Page.navigate', { url: address });
  for (let i = 0; i < 200 && !(await ask("document.body?.dataset.ready === 'yes'").catch(() => false)); i += 1) await pause(50);
  assert.equal(await ask('document.body.dataset.ready'), 'yes', await ask("document.querySelector('#report')?.textContent"));
}

// The state of the page: its text and spans, the error's message and location, the reports, and the list.
const SHOWN = `({
  text: [...document.querySelectorAll('#seen > .line')].map((it) => it.textContent).join(''),
  pieces: [...document.querySelectorAll('#seen > .line > span:not(.caret)')].map((it) => [it.className.split(' ')[0], it.textContent]),
  message: document.querySelector('#message').hidden ? '' : document.querySelector('#message').textContent,
  fault: document.querySelector('#fault') ? Number(document.querySelector('#fault').dataset.from) : null,
  line: document.querySelector('#fault') ? Number(document.querySelector('#numbers').textContent.split('\\n')[[...document.querySelectorAll('#seen > .line')].indexOf(document.querySelector('#fault').parentElement)]) : null,
  numbers: document.querySelector('#numbers').textContent.split('\\n').map(Number),
  carets: document.querySelectorAll('.caret').length,
  report: document.querySelector('#report').textContent,
  size: document.querySelector('#size').textContent,
  counted: document.querySelector('#counted').textContent,
  bytes: document.querySelector('#module-part').hidden || document.querySelector('#built').hidden ? null : document.querySelector('#bytes').textContent.split('\\n').map((it) => it.slice(10)).join(' '),
  isEdited: !document.querySelector('#text').hidden,
  ending: document.body.dataset.ending,
  options: [...document.querySelectorAll('#list [role=option]')].map((it) => [...it.children].map((part) => part.textContent)),
  held: document.querySelector('[aria-selected=true] .place')?.textContent ?? null,
  matched: [...document.querySelectorAll('.match')].map((it) => Number(it.dataset.from)),
})`;

// Returns the range of the selected token in the list when the text area's cursor is at a position.
const heldAt = (place) => ask(`{ const it = document.querySelector('#text'); it.focus(); it.setSelectionRange(${place}, ${place}); document.dispatchEvent(new Event('selectionchange')); } ${SHOWN}`).then((page) => page.held);

// Types into the text area. Selects an example first if the text area is hidden, as it is for a text that cannot be edited.
const type = (text) => ask(`{ const it = document.querySelector('#text'); if (it.hidden) document.querySelector('#example').dispatchEvent(new Event('change')); it.value = ${JSON.stringify(text)}; it.setSelectionRange(0, 0); it.dispatchEvent(new Event('input')); } ${SHOWN}`);

// The number of changes whose text has been lexed to its end, and an expression that waits in the page for one more.
const READ = "performance.getEntriesByName('read').length";
const untilReadSince = (before) => `(async () => { while (${READ} === ${before}) await new Promise((done) => setTimeout(done, 4)); })()`;

async function drop(bytes) {
  const path = join(room, 'text.wat');
  writeFileSync(path, bytes);
  const before = await ask(READ);
  const { root } = await send('DOM.getDocument');
  const { nodeId } = await send('DOM.querySelector', { nodeId: root.nodeId, selector: '#file' });
  await ask("document.querySelector('#file').value = ''");
  await send('DOM.setFileInputFiles', { nodeId, files: [path] });
  await ask(untilReadSince(before));
  return ask(SHOWN);
}

const CODES = { Tab: 9, Enter: 13, ' ': 32, End: 35, Home: 36, ArrowLeft: 37, ArrowUp: 38, ArrowRight: 39, ArrowDown: 40, y: 89, z: 90 };
const NAMES = { ' ': 'Space', y: 'KeyY', z: 'KeyZ' };
const CONTROL = { modifiers: 2 };
async function key(name, options = {}) {
  const text = { Enter: '\r', ' ': ' ' }[name];
  for (const kind of ['keyDown', 'keyUp']) await send('Input.dispatchKeyEvent', { type: kind, key: name, code: NAMES[name] ?? name, windowsVirtualKeyCode: CODES[name], text: kind === 'keyDown' ? text : undefined, ...options });
  await pause(20);
}

// Scrolls an element into view, and returns the middle of its left edge.
const spotOf = (selector) => ask(`(() => { document.querySelector('${selector}').scrollIntoView({ block: 'nearest' }); const it = document.querySelector('${selector}').getBoundingClientRect(); return [it.left + 2, it.top + it.height / 2]; })()`);

async function press(selector) {
  const [x, y] = await spotOf(selector);
  for (const kind of ['mousePressed', 'mouseReleased']) await send('Input.dispatchMouseEvent', { type: kind, x, y, button: 'left', clickCount: 1 });
  await pause(30);
  return ask(SHOWN);
}

async function typedTexts() {
  let page = await type('(module (func $foo))');
  assert.deepEqual(page.pieces, [['LParen', '('], ['Keyword', 'module'], ['Whitespace', ' '], ['LParen', '('], ['Keyword', 'func'], ['Whitespace', ' '], ['Id', '$foo'], ['RParen', ')'], ['RParen', ')']]);
  assert.deepEqual(page.matched, [0, 19]);
  assert.deepEqual(page.options.map((it) => it[0]), ['0..1', '1..7', '7..8', '8..9', '9..13', '13..14', '14..18', '18..19', '19..20']);
  page = await type('1 é tail');
  assert.deepEqual(page.pieces, [['Integer', '1'], ['Whitespace', ' '], ['fault', 'é'], ['unread', ' tail']]);
  assert.equal(page.message, "unexpected character '\\u{e9}'\n     --> <anon>:1:3\n      |\n    1 | 1 é tail\n      |   ^");
  page = await type('a"b');
  assert.deepEqual(page.pieces, [['unread', 'a"b'], ['fault', '']]);
  page = await type('');
  assert.deepEqual([page.ending, page.pieces, page.options], ['whole', [], []]);
  page = await type('"\u{1f600}" ;; 漢\u{1f600}\n\t(x)');
  assert.deepEqual(page.pieces.map((it) => it[1]), ['"\u{1f600}"', ' ', ';; 漢\u{1f600}', '\n\t', '(', 'x', ')'].flatMap((it) => (it === '\n\t' ? ['\n', '\t'] : [it])));
  for (const [flag, text] of [['allow', ';;\u{202e}'], ['strict', '"\\u{1__0}"']]) {
    const before = (await type(text)).ending;
    await ask(`document.querySelector('#${flag}').click()`);
    assert.deepEqual([before, await ask('document.body.dataset.ending')].sort(), ['faulty', 'whole'], flag);
    await ask(`document.querySelector('#${flag}').click()`);
  }
}

async function droppedTexts() {
  await ask("document.querySelector('#editor').style.height = '2000px'");
  await pause(100);
  let page = await drop('(a)\r\n\t(b "\u{1f600}")\r\n');
  assert.equal(page.text, '(a)\r\n\t(b "\u{1f600}")\r\n');
  assert.equal(page.isEdited, true);
  await ask("{ const it = document.querySelector('#text'); it.value += 'c'; it.dispatchEvent(new Event('input')); }");
  assert.equal((await ask(SHOWN)).text, '(a)\r\n\t(b "\u{1f600}")\r\nc');
  assert.deepEqual([await heldAt(3), await heldAt(4), await heldAt(11), await heldAt(12), await heldAt(14)], ['3..6', '3..6', '9..15', '15..16', '18..19']);
  // Drops a file, and returns the state of the page once it has this text, or after 10 s.
  const dropped = async (size, text) => {
    await ask(`{ const given = new DataTransfer(); given.items.add(new File(['(dropped)'.repeat(${size})], 'a.wat')); document.dispatchEvent(new DragEvent('drop', { dataTransfer: given, bubbles: true, cancelable: true })); }`);
    for (let i = 0; i < 50; i += 1) {
      await pause(200);
      page = await ask(SHOWN);
      if (page.text === text) break;
    }
    return page;
  };
  assert.equal((await dropped(1, '(dropped)')).text, '(dropped)');
  // A file that cannot be read leaves the text unchanged. A file for which memory runs out leaves an empty text.
  for (const [refused, size, text] of [['Blob.prototype.arrayBuffer', 2, '(dropped)'], ['WebAssembly.Memory.prototype.grow', 1e6, '']]) {
    await ask(`window.kept = ${refused}; ${refused} = () => { throw new RangeError('refused'); };`);
    page = await dropped(size, text);
    assert.deepEqual([page.report, page.text], ['The file could not be read: RangeError: refused', text]);
    await ask(`${refused} = window.kept;`);
  }
  assert.equal((await dropped(1, '(dropped)')).text, '(dropped)');
  page = await drop('a\rb\n');
  assert.deepEqual([page.text, page.isEdited], ['a\rb\n', false]);
  page = await drop(Buffer.from([40, 255]));
  assert.match(page.report, /not UTF-8 from byte 1 on/);
  const folder = here('../crates/wat_tokens/agreement/');
  const FLAGS = { '--allow-confusing': 'allow', '--strict-underscores': 'strict' };
  let texts = 0, faults = 0;
  for (const name of readdirSync(folder).filter((it) => existsSync(`${folder}${it}.stdout`))) {
    const words = existsSync(`${folder}${name}.args`) ? readFileSync(`${folder}${name}.args`, 'utf8').split(/\s+/).filter(Boolean) : [];
    if (!words.every((word) => word in FLAGS)) continue;
    const bytes = readFileSync(folder + name);
    for (const [word, id] of Object.entries(FLAGS)) await ask(`document.querySelector('#${id}').checked = ${words.includes(word)}`);
    page = await drop(bytes);
    const ran = spawnSync(program, words, { input: bytes });
    const report = ran.stderr.toString();
    assert.equal(page.text, bytes.toString(), name);
    assert.equal(page.pieces.map((it) => it[1]).join(''), bytes.toString(), name);
    assert.equal(page.message + (page.message && '\n'), report, name);
    if (report) {
      const lines = bytes.subarray(0, page.fault).toString('latin1').split('\n').length;
      const [line, column] = /<anon>:(\d+):(\d+)/.exec(report).slice(1);
      assert.equal(page.line, lines, name);
      assert.ok(page.report.startsWith(`Line ${line}, column ${column}: `), `${name}: ${page.report}`);
      const rows = ran.stdout.toString().trim().split('\n').filter(Boolean);
      const end = rows.length > 0 ? Number(/\.\.(\d+)/.exec(rows.at(-1))[1]) : 0;
      assert.ok(page.fault >= end && page.fault <= bytes.length, name);
      faults += 1;
    }
    texts += 1;
  }
  for (const id of Object.values(FLAGS)) await ask(`document.querySelector('#${id}').checked = false`);
  await ask("document.querySelector('#editor').style.height = ''");
  return { texts, faults };
}

// Checks that the text and the list share a cursor, for a text that is edited and for one that is only displayed.
async function theCursor() {
  await type('"\u{e9}" x');
  assert.equal(await heldAt(4), '5..6');
  await ask("{ const it = document.querySelector('#text'); it.setRangeText('\u{1f600}', 1, 2, 'end'); it.dispatchEvent(new Event('input')); }");
  assert.equal((await ask(SHOWN)).held, '0..6');
  await type('(a $b)\n(c "d")');
  assert.equal(await heldAt(3), '3..5');
  await key('ArrowDown');
  assert.equal((await ask(SHOWN)).held, '10..13');
  await key('End');
  let page = await ask(SHOWN);
  assert.deepEqual([page.matched, page.carets, await ask("document.querySelector('#place').textContent")], [[7, 13], 0, 'Line 2, character 8, byte 14']);
  await ask("document.querySelector('#list').focus()");
  await key('Home');
  await key('ArrowDown');
  assert.deepEqual([(await ask(SHOWN)).held, await ask("document.querySelector('#text').selectionStart")], ['1..2', 1]);
  assert.equal(await ask("document.querySelector('#list').getAttribute('aria-activedescendant')"), 'token-1');
  await key('End');
  assert.equal((await ask(SHOWN)).held, '13..14');
  // A press on the colored text reaches the text area over it.
  assert.equal((await press('#seen .Id')).held, '3..5');
  assert.equal(await ask('document.activeElement.id'), 'text');
}

async function theCursorOfShownTexts() {
  let page = await drop('(a $b)\n(c "d")\r\n');
  assert.equal(page.isEdited, false);
  assert.deepEqual(await ask("[document.querySelector('#view').getAttribute('role'), document.querySelector('#view').ariaHidden]"), ['group', null]);
  await ask("document.querySelector('#view').focus()");
  await key('ArrowRight');
  await key('ArrowDown');
  assert.equal((await ask(SHOWN)).held, '8..9');
  await key('End', CONTROL);
  page = await ask(SHOWN);
  assert.deepEqual([page.held, page.carets], ['14..16', 1]);
  assert.equal((await press('#seen .Id')).held, '3..5');
  page = await drop(`${'x\n'.repeat(200)}\r\n`);
  for (const [name, isScrolled] of [['Home', false], ['End', true]]) {
    await ask("document.querySelector('#view').focus()");
    await key(name, CONTROL);
    assert.deepEqual(await ask("[document.querySelectorAll('.caret').length, document.querySelector('#view').scrollTop > 0]"), [1, isScrolled], name);
  }
  await drop(`;; ${'x'.repeat(5000)}\r\n\ny`);
  await ask("document.querySelector('#view').focus()");
  await key('End');
  page = await ask(SHOWN);
  assert.deepEqual([page.pieces[0][1].length < 2100, await ask("document.querySelector('#view').scrollLeft > 0")], [true, true]);
}

// Checks that the lines in sight follow the text area, and that the text area follows the cursor.
async function scrolling() {
  await type(Array.from({ length: 300 }, (_, i) => `(line $l${i})${' '.repeat(200)};; ${i}\n`).join(''));
  await ask("document.querySelector('#text').scrollTo(150, 2000)");
  await pause(100);
  const seen = await ask("(() => { const box = document.querySelector('#text').getBoundingClientRect(); const line = [...document.querySelectorAll('#seen > .line')].find((it) => it.textContent.startsWith('(line $l100)')).getBoundingClientRect(); return [line.top - box.top, line.left - box.left]; })()");
  assert.deepEqual(seen, [0, -150 + 8]);
  assert.ok((await ask(SHOWN)).numbers.includes(101));
  await ask("document.querySelector('#list').focus()");
  for (const [name, top, left] of [['End', true, true], ['Home', false, false]]) {
    await key(name);
    await pause(100);
    assert.deepEqual(await ask("(() => { const it = document.querySelector('#text'); return [it.scrollTop > 5000, it.scrollLeft > 1000]; })()"), [top, left], name);
    const isInSight = await ask("(() => { const box = document.querySelector('#editor').getBoundingClientRect(); const it = document.querySelector('#seen .held, #seen .match').getBoundingClientRect(); return it.top >= box.top && it.bottom <= box.bottom && it.left >= box.left && it.left <= box.right; })()");
    assert.ok(isInSight, `the cursor's token at ${name}`);
  }
  await type('x\n'.repeat(200));
  await ask("document.querySelector('#text').focus()");
  await key('End', CONTROL);
  await pause(100);
  const page = await ask(SHOWN);
  assert.deepEqual([page.carets, page.numbers.at(-1), await ask("document.querySelector('#text').scrollTop > 0")], [0, 201, true]);
}

// Compares pictures of the text area's own letters and of the colored letters, painted black. Returns the number of dark pixels of the first, and the
// number of pixels that are bright in one of the pictures and dark in the other.
const BLACK = '#seen, #seen * { color: black !important; text-decoration: none !important; outline: 0 !important; background: none !important }';
async function otherDots() {
  const [x, y, width, height] = await ask("(() => { const it = document.querySelector('#text').getBoundingClientRect(); return [it.left + scrollX, it.top + scrollY, document.querySelector('#text').clientWidth, document.querySelector('#text').clientHeight]; })()");
  const picture = async () => (await send('Page.captureScreenshot', { format: 'png', clip: { x, y, width, height, scale: 1 } })).data;
  await ask(`{ document.activeElement.blur(); const sheet = document.styleSheets[0]; sheet.insertRule(${JSON.stringify(BLACK)}, 0); }`);
  const coloured = await picture();
  await ask("{ const sheet = document.styleSheets[0]; sheet.deleteRule(0); sheet.insertRule('#seen { visibility: hidden !important }', 0); sheet.insertRule('textarea { color: black !important }', 0); }");
  const own = await picture();
  await ask('{ const sheet = document.styleSheets[0]; sheet.deleteRule(0); sheet.deleteRule(0); }');
  return ask(`(async () => {
    const dots = await Promise.all(['${coloured}', '${own}'].map(async (it) => {
      const image = new Image();
      image.src = 'data:image/png;base64,' + it;
      await image.decode();
      const canvas = new OffscreenCanvas(image.width, image.height).getContext('2d');
      canvas.drawImage(image, 0, 0);
      // How bright each dot is, by its green.
      return canvas.getImageData(0, 0, image.width, image.height).data.filter((_, i) => i % 4 === 1);
    }));
    return [dots[1].filter((it) => it < 128).length, dots[0].filter((it, i) => Math.abs(it - dots[1][i]) >= 128).length];
  })()`);
}

async function metrics() {
  const line = '(func $add "caf\u{e9} \\00" (; \u{6f22}\u{5b57} \u{1f600} ;)\t(param\t$a i32)) ;; gr\u{f6}\u{df}er \u{2013} als 0x1.8p3 ][\n';
  for (const [name, text, left, top] of [['plain', line.repeat(60), 0, 0], ['scrolled', line.repeat(60), 131, 473], ['a long line', `${line.slice(0, -1).repeat(100)}\n)`, 30000, 0], ['a long line of ASCII', `${'(a\t$b) "c" 1.5 '.repeat(2000)}\n`, 90001, 0]]) {
    await type(text);
    await ask(`document.querySelector('#text').scrollTo(${left}, ${top})`);
    await pause(150);
    const [dark, other] = await otherDots();
    console.log(`  ${name}: ${dark} dark dots, ${other} other`);
    assert.ok(dark > 200 && other <= dark / 100, name);
  }
}

// Checks the menu, the error's button, the significant tokens, the binary modules of types, and links.
async function examples() {
  const names = await ask("[...document.querySelectorAll('#example option')].map((it) => it.textContent)");
  assert.ok(names.length >= 5);
  for (const [i, name] of names.entries()) {
    await ask(`{ const it = document.querySelector('#example'); it.selectedIndex = ${i}; it.dispatchEvent(new Event('change')); }`);
    const page = await ask(SHOWN);
    assert.equal(page.ending, name.startsWith('A fault') ? 'faulty' : 'whole', name);
    assert.equal(page.bytes !== null, isServed && page.ending === 'whole' && compiledBy(await valueOf('text')).status === 0, name);
  }
  await ask("document.querySelector('#example').focus()");
  await key('Home');
  assert.equal((await ask(SHOWN)).ending, 'whole');
}

async function theFault() {
  let page = await type(`${'\n'.repeat(100)}  "\\q"`);
  assert.equal(page.report, "Line 101, column 5: invalid string escape 'q'");
  await ask("document.querySelector('#go').focus()");
  await key('Enter');
  assert.deepEqual(await ask("[document.activeElement.id, document.querySelector('#text').selectionStart, document.querySelector('#text').scrollTop > 0]"), ['text', 104, true]);
  await type(`${'\n'.repeat(100)}  "\\q"`);
  page = await press('#go');
  assert.deepEqual([await ask("document.querySelector('#text').selectionStart"), page.fault, page.line], [104, 104, 101]);
  page = await type('(a)');
  assert.deepEqual([page.report, page.size, await ask("document.querySelector('#go').hidden")], ['No lexical error.', '3 tokens, 3 bytes.', true]);
  // A text area whose text became shorter reports its new scroll position only in the next frame.
  for (let i = 0; i < 100 && !page.text; i += 1) {
    await pause(20);
    page = await ask(SHOWN);
  }
}

async function whatCounts() {
  await type('(@a x) (@b "y") (; c ;) z');
  await ask("document.querySelector('#counts').click()");
  let page = await ask(SHOWN);
  assert.deepEqual([page.options.map((it) => it[0]), page.counted], [['24..25'], '1 token of 15 count.']);
  assert.equal(page.pieces.filter((it) => it[0] !== 'skipped').map((it) => it[1]).join(''), 'z');
  await ask("{ const it = document.querySelector('#names'); it.value = ' b  c'; it.dispatchEvent(new Event('input')); }");
  page = await ask(SHOWN);
  assert.deepEqual(page.options.map((it) => it[0]), ['7..8', '8..10', '11..14', '14..15', '24..25']);
  await ask("document.querySelector('#list').focus()");
  await key('Home');
  await key('ArrowDown');
  assert.deepEqual([(await ask(SHOWN)).held, await ask("document.querySelector('#text').selectionStart")], ['8..10', 8]);
  page = await type('x (@d (y)');
  assert.deepEqual([page.options.map((it) => it[0]), page.counted], [['0..1'], '1 token of 8 count. Then: unclosed annotation at byte offset 3.']);
  await ask("{ const it = document.querySelector('#names'); it.value = ''; document.querySelector('#counts').click(); }");
  assert.equal((await ask(SHOWN)).options.length, 8);
}

const compiledBy = (text) => spawnSync(program, ['module', '--no-validate'], { input: text });

// The compiler's result on the page: the size and bytes, or the error, its offset and the mark's text.
const COMPILED = `(() => {
  const shown = (id) => (document.querySelector('#' + id).hidden ? null : document.querySelector('#' + id).textContent);
  const mark = document.querySelector('#seen .rejected');
  return { said: shown('module-said'), go: shown('module-go'), message: shown('module-message'), mark: mark && [Number(mark.dataset.from), mark.textContent, mark.dataset.mark ?? ''] };
})()`;

async function modules() {
  for (const text of ['(module (type $a (func (param $p i32) (param i64 f32) (result f64))) (@x y) (type (func)))', '(module)', '', '(func (export "a") (result i32) i32.const 7)']) {
    const page = await type(text), wanted = compiledBy(text).stdout;
    assert.equal(page.bytes?.replaceAll(' ', ''), wanted.toString('hex'), text);
    assert.deepEqual(await ask(COMPILED), { said: `The text is a valid module, whose binary form has ${wanted.length} bytes.`, go: null, message: null, mark: null });
  }
  for (const [text, mark] of [['(func\n\u{e9} )', null], ['(module\n  (func \u{1f600}))', null], ['(module\n  (func frob))', [16, 'frob', '']], ['(module) x', [9, 'x', '']], ['(module (func)', [14, '', '\u258f']]]) {
    const page = await type(text), { stderr } = compiledBy(text);
    const { message, mark: shown } = await ask(COMPILED);
    assert.deepEqual([page.bytes, page.message || message, shown], [null, stderr.toString().trimEnd(), mark], text);
  }
  // A module that is not valid has bytes and an error.
  const invalid = '(func (; \u{1f600} ;) drop)', { stdout } = compiledBy(invalid);
  assert.equal((await type(invalid)).bytes?.replaceAll(' ', ''), stdout.toString('hex'));
  const { said, go, mark } = await ask(COMPILED);
  assert.deepEqual([said, go, mark], [`The text is a module that is not valid, whose binary form has ${stdout.length} bytes.`, 'Line 1, column 16: type mismatch: expected an operand, found []', [17, 'drop', '']]);
  await type(`(module\n${'\n'.repeat(100)} frob)`);
  await press('#module-go');
  assert.deepEqual(await ask("[document.activeElement.id, document.querySelector('#text').selectionStart, document.querySelector('#text').scrollTop > 0]"), ['text', 109, true]);
  // A longer text is compiled after a pause.
  const long = `(module ${'(func nop)'.repeat(10_000)})`;
  await type(long);
  for (let i = 0; i < 200 && !(await ask(SHOWN)).bytes; i += 1) await pause(50);
  assert.equal((await ask(COMPILED)).said, `The text is a valid module, whose binary form has ${compiledBy(long).stdout.length.toLocaleString('en')} bytes, of which the first 4096 are shown.`);
}

// Waits until the worker has replied, and returns the state of the module's instance.
const RAN = `(() => {
  const shown = (id) => (document.querySelector('#' + id).hidden ? null : document.querySelector('#' + id).textContent);
  return { ran: shown('ran'), fields: shown('interface') === null ? null : [...document.querySelectorAll('#interface li')].map((it) => it.textContent), isCalled: !document.querySelector('#call').hidden, results: shown('results'), active: document.activeElement.id };
})()`;
async function ran() {
  let state = await ask(RAN);
  for (let i = 0; i < 400 && /^The (module is being|function is running)/.test(state.ran ?? ''); i += 1) {
    await pause(25);
    state = await ask(RAN);
  }
  return state;
}

// Calls the function at an index of the menu by the keyboard: writes the arguments, and presses Enter in the last one, or on the button.
async function call(index, given) {
  await ask(`{ const it = document.querySelector('#callee'); it.selectedIndex = ${index}; it.dispatchEvent(new Event('change')); }`);
  await ask(`{ const all = document.querySelectorAll('#arguments input'); for (const [i, text] of ${JSON.stringify(given)}.entries()) all[i].value = text; (all[all.length - 1] ?? document.querySelector('#call button')).focus(); }`);
  await key('Enter');
  return ran();
}

const RUN = `(module
  (memory (export "m") 1 2) (table (export "t") 1 funcref) (global (export "g") (mut f32) (f32.const 1)) (global $n (mut i32) (i32.const 0))
  (func (export "count") (result i32) (global.set $n (i32.add (global.get $n) (i32.const 1))) (global.get $n))
  (func (export "all") (param i32 i64 f32 f64) (result f64 f32 i64 i32) (local.get 3) (local.get 2) (local.get 1) (local.get 0))
  (func (export "divide") (param i32 i32) (result i32) (i32.div_s (local.get 0) (local.get 1)))
  (func (export "nothing")) (func (export "null") (result funcref) (ref.null func)) (func (export "vector") (param v128))
  (func (export "forever") (loop (br 0))))`;

async function running() {
  await type(RUN);
  await press('#run');
  let state = await ran();
  assert.deepEqual(state, {
    ran: 'The module is instantiated.', isCalled: true, results: null, active: 'run',
    fields: ['(export "m" (memory 1 2))', '(export "t" (table 1 funcref))', '(export "g" (global (mut f32)))', '(export "count" (func (result i32)))', '(export "all" (func (param i32 i64 f32 f64) (result f64 f32 i64 i32)))', '(export "divide" (func (param i32 i32) (result i32)))', '(export "nothing" (func))', '(export "null" (func (result funcref)))', '(export "vector" (func (param v128)))', '(export "forever" (func))'],
  });
  assert.deepEqual(await ask("[...document.querySelectorAll('#callee option')].map((it) => it.textContent)"), ['count', 'all', 'divide', 'nothing', 'null', 'forever']);
  for (const [index, given, line] of [[0, [], 'count() = 1'], [0, [], 'count() = 2'], [1, ['-1', '0xffff_ffff_ffff_ffff', '-0', 'nan'], 'all(-1, -1, -0, nan) = nan, -0, -1, -1'], [1, ['4294967295', '9007199254740993', '0.1', '-inf'], 'all(-1, 9007199254740993, 0.1, -inf) = -inf, 0.10000000149011612, 9007199254740993, -1'], [2, ['7', '2'], 'divide(7, 2) = 3'], [2, ['1', '0'], 'divide(1, 0): RuntimeError: divide by zero'], [3, [], 'nothing() returned no value'], [4, [], 'null() = null']]) {
    state = await call(index, given);
    assert.deepEqual([state.ran, state.results.split('\n').at(-1)], [null, line]);
  }
  state = await call(2, ['1', '2147483648000']);
  assert.deepEqual([state.ran, state.results.split('\n').length, await ask("[...document.querySelectorAll('#arguments input')].map((it) => it.getAttribute('aria-invalid'))")], ['Argument 2 is not an i32.', 8, ['false', 'true']]);
  // A call that does not end is stopped, and the page stays responsive meanwhile.
  await ask("window.ticks = 0; window.ticking = setInterval(() => { window.ticks += 1; }, 20)");
  state = await call(5, []);
  assert.deepEqual([state.ran, state.results.split('\n').at(-1), state.isCalled, state.active], ['The instance has ended. Run the module again for another one.', 'forever() was stopped after 5 s', false, 'run']);
  assert.ok((await ask('clearInterval(window.ticking), window.ticks')) > 50);
  await key('Enter');
  assert.equal((await ran()).ran, 'The module is instantiated.');
  assert.equal((await call(0, [])).results, 'count() = 1');
  // A change ends the instance.
  await type('(module)');
  assert.deepEqual(await ask(RAN), { ran: null, fields: null, isCalled: false, results: null, active: '' });
  for (const [text, wanted, fields, isCalled] of [
    ['(func (result i32))', /^The browser rejects the module: CompileError: .*#0/, null, false],
    ['(import "a" "f" (func (param i32))) (func (export "g"))', /^The module has imports, so it is not instantiated\.$/, ['(import "a" "f" (func (param i32)))', '(export "g" (func))'], false],
    ['(start 0) (func unreachable)', /^The module could not be instantiated: RuntimeError: unreachable$/, null, false],
    ['(global (export "g") i32 (i32.const 1))', /^The module is instantiated\. It exports no function of numbers\.$/, ['(export "g" (global i32))'], false],
    ['(func $f (export "f") (call $f))', /^The module is instantiated\.$/, ['(export "f" (func))'], true],
  ]) {
    await type(text);
    await press('#run');
    state = await ran();
    assert.match(state.ran, wanted);
    assert.deepEqual([state.fields, state.isCalled], [fields, isCalled], text);
  }
  assert.match((await call(0, [])).results, /^f\(\): RangeError: Maximum call stack size exceeded$/);
}

// Saves a module, by the keyboard, and compares the file.
async function saving() {
  if (!(await ask('location.protocol')).startsWith('http')) return;
  await send('Browser.setDownloadBehavior', { behavior: 'allow', downloadPath: room });
  await type(RUN);
  await ask("document.querySelector('#save').focus()");
  await key('Enter');
  for (let i = 0; i < 200 && !existsSync(join(room, 'module.wasm')); i += 1) await pause(25);
  assert.deepEqual(readFileSync(join(room, 'module.wasm')), compiledBy(RUN).stdout);
  rmSync(join(room, 'module.wasm'));
}

async function links() {
  const text = '(a "\u{1f600}" (@n x))\r\n(b)\r\n';
  await drop(text);
  await ask("{ for (const id of ['allow', 'counts']) document.querySelector(`#${id}`).click(); document.querySelector('#names').value = 'n o'; }");
  await ask("document.querySelector('#share').click()");
  for (let i = 0; i < 100 && !(await ask("document.querySelector('#shared').textContent")); i += 1) await pause(20);
  assert.match(await ask("document.querySelector('#shared').textContent"), /^The link is/);
  const address = await ask('location.href');
  await visit(address);
  const page = await ask(SHOWN);
  assert.deepEqual([page.text, await ask("[...['allow', 'strict', 'counts'].map((id) => document.querySelector(`#${id}`).checked), document.querySelector('#names').value]")], [text, [true, false, true, 'n o']]);
  assert.equal(page.counted, '11 tokens of 16 count.');
  await ask("location.hash = '#text=x'");
  await pause(200);
  assert.match(await ask("document.querySelector('#report').textContent"), /^The link could not be read/);
  assert.equal((await ask(SHOWN)).text, text);
  await visit(origin);
  // A page that opens with a link that it cannot read has the first example, and says so.
  const example = (await ask(SHOWN)).text;
  const long = deflateRawSync(Buffer.alloc(100_000_000)).toString('base64url');
  for (const word of ['x', '%%%', long]) {
    await visit(`${origin}#text=${word}`);
    const { report, text: shown } = await ask(SHOWN);
    assert.match(report, /^The link could not be read/, word.slice(0, 10));
    assert.equal(shown, example);
  }
  await visit(origin);
}

const valueOf = (id) => ask(`document.querySelector('#${id}').value`);
const layoutBy = (text) => spawnSync('python3', [here('../tools/differential/reference_formatter.py')], { input: text }).stdout.toString();

// Checks the button that formats the text, by mouse and by keyboard, and undo.
async function formatting() {
  const text = '(module\n(func ( param i32 )(;\u{1f600};) nop\nif nop ;; \u{e9}\nend))\n\n\n';
  const laid = layoutBy(text);
  assert.equal(laid, '(module\n  (func (param i32) (;\u{1f600};) nop\n    if nop ;; \u{e9}\n    end))\n');
  await type(text);
  await heldAt(text.indexOf('end') + 1);
  for (const start of [() => press('#format'), () => ask("document.querySelector('#format').focus()").then(() => key('Enter'))]) {
    await start();
    const page = await ask(SHOWN);
    const place = laid.indexOf('end') + 1;
    assert.deepEqual([await valueOf('text'), page.text, page.pieces.at(-4)[1], page.held], [laid, laid, 'end', `${Buffer.byteLength(laid.slice(0, place - 1))}..${Buffer.byteLength(laid.slice(0, place + 2))}`]);
    assert.deepEqual(await ask("[document.querySelector('#formatted').textContent, document.activeElement.id, document.querySelector('#text').selectionStart]"), ['The text is formatted.', 'text', place]);
    for (const [name, value] of [['z', text], ['y', laid], ['z', text]]) {
      await key(name, CONTROL);
      assert.deepEqual([await valueOf('text'), (await ask(SHOWN)).text], [value, value], name);
    }
    assert.equal(await ask("document.querySelector('#formatted').textContent"), '');
    await heldAt(text.indexOf('end') + 1);
  }
  // Any text is replaced by exactly the formatted text, and undo restores it.
  for (const given of ['\n\n( a "&lt;<b>&#60;" )  ;; \t&amp; \u00a0\u2028\u000c x \n\n\n(b)\t', '( a ;; \0\n)', '\t\n', `( a )\n${'(b\n( c )\n\n\n)'.repeat(2000)}`]) {
    await type(given);
    await press('#format');
    assert.equal(await valueOf('text'), layoutBy(given));
    await key('z', CONTROL);
    await pause(300);
    assert.equal(await valueOf('text'), given);
  }
  // A text that cannot be formatted stays as it is, and the page prints the reason.
  const deep = '(a\n'.repeat(25_000);
  for (const [given, answer] of [[laid, 'The text is formatted already.'], ['', 'The text is formatted already.'], ['( a "', 'A text with a fault is not formatted.'], [deep, 'Formatted it would have more than a megabyte, and is left as it is.']]) {
    const said = () => ask("document.querySelector('#formatted').textContent");
    await type(given);
    // The button moves when the page has read the text and takes the last message away. A busy page does so later, and acts on the press later.
    for (let i = 0; i < 200 && (await said()); i += 1) await pause(25);
    await press('#format');
    for (let i = 0; i < 200 && !(await said()); i += 1) await pause(25);
    assert.deepEqual([await said(), await valueOf('text')], [answer, given]);
  }
  await drop('( a )\r');
  assert.equal((await press('#format')).text, '( a )\r');
  assert.equal(await ask("document.querySelector('#formatted').textContent"), 'A text that is only shown is not formatted.');
  // CR LF line ends stay.
  await drop(text.replaceAll('\n', '\r\n'));
  assert.equal((await press('#format')).text, laid.replaceAll('\n', '\r\n'));
  await key('z', CONTROL);
  assert.equal((await ask(SHOWN)).text, text.replaceAll('\n', '\r\n'));
}

// Checks every control of the page by the keyboard alone.
async function byKeyboard() {
  await visit(origin);
  const here = () => ask('document.activeElement.id');
  const goTo = async (id) => {
    for (let i = 0; i < 30 && (await here()) !== id; i += 1) await key('Tab');
    assert.equal(await here(), id);
  };
  const textOf = (id) => ask(`document.querySelector('#${id}').textContent`);
  await goTo('example');
  await key('End');
  const reached = [];
  for (let i = 0; i < 12; i += 1) {
    reached.push(await here());
    await key('Tab');
  }
  assert.deepEqual(reached, ['example', 'file', 'format', 'share', 'allow', 'strict', 'go', 'text', 'message', 'counts', 'names', 'list']);
  await goTo('share');
  await key('Enter');
  for (let i = 0; i < 100 && !(await textOf('shared')); i += 1) await pause(20);
  assert.match(await textOf('shared'), /^The link is/);
  await goTo('go');
  await key('Enter');
  assert.deepEqual([await here(), (await ask(SHOWN)).fault], ['text', await ask("new TextEncoder().encode(document.querySelector('#text').value.slice(0, document.querySelector('#text').selectionStart)).length")]);
  for (const [id, ending] of [['allow', 'whole'], ['strict', 'whole'], ['strict', 'whole'], ['allow', 'faulty']]) {
    await goTo(id);
    await key(' ');
    assert.equal((await ask(SHOWN)).ending, ending, id);
  }
  await goTo('text');
  await key('Home', CONTROL);
  await send('Input.insertText', { text: '(@a ( b )) ' });
  await goTo('format');
  await key('Enter');
  assert.equal(await textOf('formatted'), 'A text with a fault is not formatted.');
  await goTo('allow');
  await key(' ');
  await goTo('format');
  await key('Enter');
  assert.ok((await valueOf('text')).startsWith('(@a (b)) (module\n'));
  await goTo('counts');
  await key(' ');
  assert.equal((await ask(SHOWN)).options[0][2], '(');
  const before = (await ask(SHOWN)).options.length;
  await goTo('names');
  await send('Input.insertText', { text: 'a' });
  assert.equal((await ask(SHOWN)).options.length, before + 6);
  await goTo('list');
  await key('Home');
  await key('ArrowDown');
  assert.equal((await ask(SHOWN)).held, '1..3');
  await visit(origin);
}

// The roles and names of all elements that take the focus, and the contrast of all text in sight.
const ACCESS = `(() => {
  const channel = (value) => (value / 255 <= 0.04045 ? value / 255 / 12.92 : ((value / 255 + 0.055) / 1.055) ** 2.4);
  const light = ([r, g, b]) => 0.2126 * channel(r) + 0.7152 * channel(g) + 0.0722 * channel(b);
  const colour = (text) => text.match(/[\\d.]+/g).map(Number);
  const ground = (it) => { for (; it; it = it.parentElement) { const of = colour(getComputedStyle(it).backgroundColor); if ((of[3] ?? 1) === 1) return of; } return [255, 255, 255]; };
  const poor = [];
  for (const it of document.querySelectorAll('body *')) {
    if (![...it.childNodes].some((node) => node.nodeType === 3 && node.textContent.trim()) || !it.getClientRects().length || it.closest('script')) continue;
    const [a, b] = [light(colour(getComputedStyle(it).color)), light(ground(it))].sort((x, y) => y - x);
    const ratio = (a + 0.05) / (b + 0.05);
    if (ratio < 4.5) poor.push([it.className || it.tagName, ratio.toFixed(2)]);
  }
  return { poor, language: document.documentElement.lang, title: document.title, headings: [...document.querySelectorAll('h1, h2')].filter((it) => it.getClientRects().length).map((it) => it.tagName), wide: document.documentElement.scrollWidth > document.documentElement.clientWidth };
})()`;

// Checks that the accessibility tree has these roles with names, and a name for all that takes the focus. Returns its nodes.
async function named(all) {
  const { nodes } = await send('Accessibility.getFullAXTree');
  const names = nodes.filter((it) => !it.ignored).map((it) => `${it.role?.value} ${it.name?.value}`);
  for (const wanted of all) assert.ok(names.includes(wanted), `${wanted}: ${names.filter((it) => !it.includes('StaticText') && !it.includes('Inline')).slice(0, 60).join(', ')}`);
  assert.ok(nodes.every((it) => it.ignored || !it.properties?.some((of) => of.name === 'focusable' && of.value.value) || it.role?.value === 'RootWebArea' || it.name?.value), 'a name for all that takes the focus');
  return nodes;
}

async function access() {
  await type('(module ;; c\n (@a "b" $c -1 0x1p3 [ ) (; d ;)\n é x');
  const nodes = await named(['heading WebAssembly text, as the lexer sees it', 'switch Allow confusing characters', 'switch Strict underscores', 'textbox Text', 'listbox Tokens', 'combobox Example', ...(isServed ? ['button Format the text'] : []), 'button Make a link to this text', 'switch Only what counts', 'textbox Registered annotations']);
  assert.ok(nodes.some((it) => it.role?.value === 'status'));
  assert.ok(nodes.some((it) => it.role?.value === 'option' && it.properties?.some((of) => of.name === 'selected' && of.value.value === true)));
  await inEachScheme(['H1', 'H2', 'H2']);
  if (!isServed) return;
  await type(RUN);
  await press('#run');
  await ran();
  await call(1, ['1', '2', '3', 'x']);
  await call(0, []);
  await named(['heading Binary module', 'group Bytes of the module', 'button Save the .wasm file', 'button Run the module', 'list Imports and exports', 'combobox Function', 'button Call the function', 'log Results']);
  await inEachScheme(['H1', 'H2', 'H2', 'H2']);
  await call(1, ['1', '2', '3', 'x']);
  await named(['textbox Argument 1, i32', 'textbox Argument 4, f64']);
  await inEachScheme(['H1', 'H2', 'H2', 'H2']);
  await type('(module\n (func frob))');
  await named(["group The compiler's error, as the program prints it"]);
  await inEachScheme(['H1', 'H2', 'H2', 'H2']);
}

// Checks contrast, headings and width in both schemes, in a wide and in a narrow window.
async function inEachScheme(headings) {
  for (const scheme of ['light', 'dark']) {
    await send('Emulation.setEmulatedMedia', { features: [{ name: 'prefers-color-scheme', value: scheme }] });
    for (const width of [1200, 360]) {
      await send('Emulation.setDeviceMetricsOverride', { width, height: 900, deviceScaleFactor: 1, mobile: width < 500 });
      const found = await ask(ACCESS);
      assert.deepEqual(found, { poor: [], language: 'en', title: 'WebAssembly text, as the lexer sees it', headings, wide: false }, `${scheme} ${width}`);
    }
  }
  await send('Emulation.clearDeviceMetricsOverride');
  await send('Emulation.setEmulatedMedia', { features: [] });
}

// Runs in the page: edits the text area at random. Returns the first state in which the page's text differs from the text area's, or in which the
// page changes when the whole text is lexed again; otherwise null.
function retypeOften(times, lineEnd, shown) {
  const PIECES = ['"', '\\', '(;', ';)', ';;', ';', '(', ')', '@', '$', 'x', '0x1', ' ', '\t', '\n', '\n\n', '\u00e9', '\u6f22', '\u{1f600}', '\u202e'];
  const it = document.querySelector('#text');
  let seed = 1, at = 0;
  const below = (count) => {
    seed = (seed * 48271) % 2147483647;
    return seed % count;
  };
  // Returns the nearest position from this one on that does not split a surrogate pair.
  const whole = (place) => (/^[\udc00-\udfff]/.test(it.value.slice(place)) ? place + 1 : place);
  for (let i = 0; i < times; i += 1) {
    at = whole(below(4) === 0 ? below(it.value.length + 1) : Math.min(at, it.value.length));
    const end = whole(Math.min(it.value.length, at + [0, 0, 1, 3][below(4)]));
    const piece = below(4) === 0 ? '' : PIECES[below(PIECES.length)];
    it.setRangeText(piece, at, end, 'end');
    at += piece.length;
    it.dispatchEvent(new Event('input'));
    const before = shown();
    for (let j = 0; j < 2; j += 1) document.querySelector('#strict').click();
    const again = shown();
    const text = it.value.replaceAll('\n', lineEnd);
    if (before.text !== text || JSON.stringify(before) !== JSON.stringify(again)) return { i, text, before, again };
  }
  return null;
}

async function retyping() {
  await ask("document.querySelector('#editor').style.height = '2000px'");
  await pause(100);
  for (const lineEnd of ['\n', '\r\n']) {
    await drop(['(a $b "\u{e9}\u{1f600}")', '\t(; \u{6f22} ;) ;; c', '(@d "e" 1.5)', ''].join(lineEnd).repeat(4));
    assert.equal(await ask(`(${retypeOften})(400, ${JSON.stringify(lineEnd)}, () => ${SHOWN})`), null);
  }
  await ask("document.querySelector('#editor').style.height = ''");
}

const best = (all) => {
  all.sort((one, other) => one - other);
  return `${all[0].toFixed(1)} ms at best, ${all[Math.floor(all.length / 2)].toFixed(1)} in the middle`;
};
const LAST = "['show', 'read'].map((name) => performance.getEntriesByName(name).at(-1).duration)";

// Runs in the page: inserts a piece at a position and removes it again, in turn, and returns the times that `last` reports. The browser computes no
// layout in between, which would take a second for a text area of a megabyte.
async function typeOften(times, place, piece, last) {
  const it = document.querySelector('#text');
  const all = [];
  for (let i = 0; i < times; i += 1) {
    const before = performance.getEntriesByName('read').length;
    if (i % 2 === 0) it.setRangeText(piece, place, place, 'end'); else it.setRangeText('', place, place + piece.length, 'end');
    it.dispatchEvent(new Event('input'));
    while (performance.getEntriesByName('read').length === before) await new Promise((done) => setTimeout(done));
    all.push(last());
  }
  return all;
}

// Runs in the page: measures the module alone, on the whole text that the server returns as `generated`.
async function readOften(times) {
  const { Lexer } = await import('./wat-lex/lexer.js');
  const module = await WebAssembly.compile(await fetch('wat-lex/wat_lex.wasm').then((it) => it.arrayBuffer()));
  const lexer = new Lexer(new WebAssembly.Instance(module));
  const given = new Uint8Array(await fetch('generated').then((it) => it.arrayBuffer()));
  lexer.reserve(given.length);
  lexer.bytes(given.length).set(given);
  const all = [];
  for (let i = 0; i < times; i += 1) {
    const start = performance.now();
    lexer.tell(0, given.length, 0, given.length, {});
    all.push(performance.now() - start);
    await new Promise((done) => setTimeout(done, 20));
  }
  return all;
}

// Prints the times that the page measures: until the visible part is drawn, and until the whole text is lexed.
const tell = (bytes, name, all) => console.log(`  ${bytes.length} bytes, ${name}: ${best(all.map((it) => it[0]))}; all read ${best(all.map((it) => it[1]))}`);

async function tellEach(bytes, name, times, change) {
  const all = [];
  for (let i = 0; i < times; i += 1) {
    await change();
    all.push(await ask(LAST));
    await pause(20);
  }
  tell(bytes, name, all);
}

const generatedText = (megabytes) => spawnSync('python3', [here('../tools/lib/generate_text.py'), String(megabytes)], { maxBuffer: 2 ** 30 }).stdout;

// Opens a long text, and checks that its tokens and its error are those of the program.
async function openLong(name, text) {
  const given = Buffer.from(text);
  const page = await drop(given);
  const ran = spawnSync(program, { input: given, maxBuffer: 2 ** 30 });
  const rows = ran.stdout.toString().split('\n').slice(0, -1);
  assert.deepEqual([page.size, page.message + (page.message && '\n')], [`${rows.length.toLocaleString('en')} tokens, ${given.length.toLocaleString('en')} bytes.`, ran.stderr.toString()], name);
  for (const [end, row] of [['End', rows.at(-1)], ['Home', rows[0]]]) {
    await ask("document.querySelector('#list').focus()");
    await key(end);
    assert.equal((await ask(SHOWN)).held, row.split(' ')[0], `${name} ${end}`);
  }
}

// Checks long texts that workers lex ahead, with any token at the start of a stretch, and two texts whose workers fail.
async function longTexts() {
  const text = generatedText(4).toString();
  const middle = text.indexOf('\n', text.length / 2);
  const pieces = ['', ` (; ${'x ;; " (@ '.repeat(60_000)} ;) `, ` "${'\u6f22(;'.repeat(60_000)}" `, ` ;; ${'"('.repeat(300_000)}`, ` ${'word'.repeat(200_000)} `, ' (; ', ' "', ' \u{1f600} '];
  const started = "window.workers = 0; window.Worker = class extends Worker { constructor(...given) { super(...given); window.workers += 1; } };";
  const failing = "window.workers = 0; window.Worker = class extends Worker { constructor() { super('nowhere.js'); window.workers += 1; } };";
  for (const [source, those] of [[started, pieces], [failing, pieces.slice(0, 2)]]) {
    const { identifier } = await send('Page.addScriptToEvaluateOnNewDocument', { source });
    await visit(origin);
    for (const piece of those) await openLong(piece.slice(0, 10), text.slice(0, middle) + piece + text.slice(middle));
    assert.equal(await ask('window.workers'), Math.min(4, (await ask('navigator.hardwareConcurrency')) - 1));
    await send('Page.removeScriptToEvaluateOnNewDocument', { identifier });
  }
  await visit(origin);
}

// Checks the lines that are drawn in the middle of a long text.
async function theMiddle(bytes, box) {
  await ask(`document.querySelector('${box}').scrollTop = document.querySelector('${box}').scrollHeight / 2`);
  await pause(200);
  const shown = await ask(SHOWN);
  const at = bytes.toString().indexOf(shown.text);
  assert.ok(shown.text.length > 100 && at >= 0, 'the middle of the text');
  assert.equal(shown.numbers[0], bytes.toString().slice(0, at).split('\n').length);
}

// Measures edits of a text of one megabyte, including the drawing of the visible part.
async function timesOfTyping() {
  const bytes = generatedText(1);
  const page = await drop(bytes);
  assert.deepEqual([page.ending, page.isEdited], ['whole', true], page.report);
  await theMiddle(bytes, '#text');
  const line = (place) => bytes.toString().indexOf('\n', place) + 1;
  for (const [times, name, place, piece] of [[26, 'a letter in the middle', bytes.length / 2, 'x'], [10, 'a letter in front', 0, 'x'], [10, 'a quote in the middle', bytes.length / 2, '"'], [6, 'a comment in front', 0, '(;']]) {
    tell(bytes, name, await ask(`(${typeOften})(${times}, ${line(place)}, ${JSON.stringify(piece)}, () => ${LAST})`));
  }
  await tellEach(bytes, 'read again', 25, async () => {
    const before = await ask(READ);
    await ask("document.querySelector('#strict').click()");
    await ask(untilReadSince(before));
  });
  await ask("document.querySelector('#strict').checked = false");
  await tellEach(bytes, 'opened', 5, () => drop(bytes));
}

// Measures opening a text of ten megabytes, with workers and without, and the module alone, in turn.
async function timesOfOpening() {
  generated = generatedText(10);
  const processors = await ask('navigator.hardwareConcurrency');
  for (let round = 0; round < 3; round += 1) {
    for (const hardwareConcurrency of [processors, 1]) {
      await send('Emulation.setHardwareConcurrencyOverride', { hardwareConcurrency });
      await visit(origin);
      console.log(`  ${generated.length} bytes, the module alone: ${best(await ask(`(${readOften})(15)`))}`);
      const page = await drop(generated);
      assert.deepEqual([page.ending, page.isEdited], ['whole', false], page.report);
      await tellEach(generated, `opened, ${hardwareConcurrency} processors`, 15, () => drop(generated));
    }
  }
  await send('Emulation.setHardwareConcurrencyOverride', { hardwareConcurrency: processors });
  await theMiddle(generated, '#view');
}

// Takes a picture of each scheme: of a module that runs, and of an error of the compiler.
async function takePictures() {
  await visit(origin);
  await ask("for (const id of ['editor', 'list']) document.querySelector(`#${id}`).style.height = '20rem'");
  for (const [scheme, example, height] of [['light', 1, 1080], ['dark', 2, 830]]) {
    await send('Emulation.setDeviceMetricsOverride', { width: 1100, height, deviceScaleFactor: 1, mobile: false });
    await send('Emulation.setEmulatedMedia', { features: [{ name: 'prefers-color-scheme', value: scheme }] });
    await ask(`{ const it = document.querySelector('#example'); it.selectedIndex = ${example}; it.dispatchEvent(new Event('change')); }`);
    if (isServed && scheme === 'light') {
      await press('#run');
      await ran();
      for (const [index, given] of [[0, ['20']], [1, ['1', '0']]]) await call(index, given);
    }
    await ask("{ const it = document.querySelector('#text'); const place = it.value.indexOf('(func') + 1; it.focus(); it.setSelectionRange(place, place); scrollTo(0, 0); }");
    await pause(200);
    writeFileSync(join(pictures, `page-${scheme}.png`), Buffer.from((await send('Page.captureScreenshot', { format: 'png' })).data, 'base64'));
  }
  await send('Emulation.clearDeviceMetricsOverride');
}

let failed = 1;
const limit = setTimeout(() => { console.error('no answer in half an hour'); browser.kill('SIGKILL'); process.exit(1); }, 1_800_000);
try {
  const { targetId } = await send('Target.createTarget', { url: 'about:blank' });
  session = (await send('Target.attachToTarget', { targetId, flatten: true })).sessionId;
  for (const domain of ['Runtime', 'Log', 'Page', 'DOM', 'Accessibility']) await send(`${domain}.enable`);
  await visit(origin);
  await typedTexts();
  for (const width of isQuick ? [1200] : [1200, 360]) {
    await send('Emulation.setDeviceMetricsOverride', { width, height: 900, deviceScaleFactor: 1, mobile: false });
    const checks = [theCursor, theCursorOfShownTexts, scrolling, metrics, examples, theFault, whatCounts, links];
    for (const check of isServed ? [...checks, modules, running, saving, formatting, byKeyboard] : checks) {
      await check();
      console.log(`${check.name}, ${width} pixels`);
    }
  }
  await send('Emulation.clearDeviceMetricsOverride');
  console.log(await droppedTexts());
  await retyping();
  await access();
  await longTexts();
  if (!isQuick) {
    await timesOfTyping();
    await timesOfOpening();
  }
  if (pictures) await takePictures();
  await visit(pathToFileURL(here('out/wat.html')).href);
  await typedTexts();
  if (isServed) for (const check of [modules, running]) await check();
  const bad = events.filter((it) => it.method === 'Runtime.exceptionThrown' || (it.method === 'Runtime.consoleAPICalled' && it.params.type === 'error') || (it.method === 'Log.entryAdded' && it.params.entry.level === 'error'));
  assert.deepEqual(bad, []);
  // Violations of the page's content security policy are reported in the console.
  for (const address of [origin, pathToFileURL(here('out/wat.html')).href]) {
    await send('Page.navigate', { url: address });
    await pause(500);
    assert.equal(await ask("fetch('data:,a').then(() => 'let through', () => 'refused')"), 'refused', address);
  }
  if (!isServed) console.log('modules, running, saving, formatting and byKeyboard are left out, as the module takes no memory');
  console.log('the page passed, in', (await send('Browser.getVersion')).product);
  failed = 0;
} catch (error) {
  console.error(error);
} finally {
  clearTimeout(limit);
  session = undefined;
  await Promise.race([send('Browser.close').catch(() => {}), pause(2000)]);
  await Promise.race([new Promise((done) => (browser.exitCode === null && browser.signalCode === null ? browser.once('exit', done) : done())), pause(3000)]);
  server.close();
  rmSync(room, { recursive: true, force: true, maxRetries: 5 });
  process.exit(failed);
}
