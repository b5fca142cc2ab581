// A substitute in node for a browser's document: the elements of a page's HTML, with what page.js uses of them. It has no layout: each box has 300 by
// 600 pixels, and each character 8 by 20.
const VOID = new Set(['meta', 'link', 'input']);
const WIDTH = 8;

class TextNode {
  nodeType = 3;
  parentElement = null;
  constructor(text) { this.textContent = text; }
}

// Returns `true` if an element matches a selector: a class, an identifier, or an attribute with its value.
function matches(it, selector) {
  const [, mark, name, value] = /^([.#[])([\w-]+)(?:=(\w+)\])?/.exec(selector);
  if (mark === '.') return it.className.split(' ').includes(name);
  if (mark === '#') return it.id === name;
  return value === undefined ? name.slice('data-'.length) in it.dataset : it.getAttribute(name) === value;
}

export class Element {
  nodeType = 1;
  parentElement = null;
  childNodes = [];
  dataset = {};
  style = {};
  attributes = {};
  listeners = {};
  hidden = false;
  checked = false;
  className = '';
  id = '';
  ariaHidden = null;
  clientHeight = 300;
  clientWidth = 600;
  scrollTop = 0;
  scrollLeft = 0;
  selectedIndex = 0;
  files = [];
  selectionStart = 0;
  selectionEnd = 0;
  #value = '';

  constructor(document, tagName) { Object.assign(this, { document, tagName }); }

  get value() { return this.#value; }
  set value(text) {
    this.#value = this.tagName === 'textarea' ? text.replace(/\r\n?/g, '\n') : text;
    this.setSelectionRange(this.#value.length, this.#value.length);
  }
  setSelectionRange(start, end) { Object.assign(this, { selectionStart: start, selectionEnd: end }); }

  getAttribute(name) { return this.attributes[name] ?? null; }
  setAttribute(name, value) { this.attributes[name] = String(value); }
  removeAttribute(name) { delete this.attributes[name]; }
  get classList() {
    return { toggle: (name, isSet) => { this.className = [...this.className.split(' ').filter((it) => it && it !== name), ...(isSet ? [name] : [])].join(' '); } };
  }

  get children() { return this.childNodes.filter((it) => it.nodeType === 1); }
  get firstElementChild() { return this.children[0] ?? null; }
  get firstChild() { return this.childNodes[0] ?? null; }
  get nextSibling() { return this.parentElement.childNodes[this.parentElement.childNodes.indexOf(this) + 1] ?? null; }
  get all() { return this.children.flatMap((it) => [it, ...it.all]); }
  get textContent() { return this.childNodes.map((it) => it.textContent).join(''); }
  set textContent(text) {
    this.childNodes = [];
    if (text) this.append(text);
  }

  append(...given) {
    for (const it of given.map((one) => (typeof one === 'string' ? new TextNode(one) : one))) this.insertBefore(it, null);
  }
  insertBefore(child, next) {
    child.parentElement?.childNodes.splice(child.parentElement.childNodes.indexOf(child), 1);
    child.parentElement = this;
    this.childNodes.splice(next ? this.childNodes.indexOf(next) : this.childNodes.length, 0, child);
  }
  replaceChildren(...given) {
    this.childNodes = [];
    this.append(...given);
  }
  remove() { this.parentElement.childNodes.splice(this.parentElement.childNodes.indexOf(this), 1); }

  contains(it) { return it === this || this.all.includes(it); }
  querySelectorAll(selector) { return this.all.filter((it) => matches(it, selector)); }
  querySelector(selector) { return this.first((it) => matches(it, selector)); }
  // Returns the first element inside for which a function returns `true`, or null.
  first(is) {
    for (const it of this.childNodes) {
      const found = it.nodeType === 1 ? (is(it) && it) || it.first(is) : null;
      if (found) return found;
    }
    return null;
  }
  closest(selector) { return matches(this, selector) ? this : this.parentElement?.closest?.(selector) ?? null; }

  // The position in its line, if all characters have one width.
  get offsetLeft() {
    const before = this.parentElement.childNodes.slice(0, this.parentElement.childNodes.indexOf(this));
    return WIDTH * before.reduce((sum, it) => sum + it.textContent.length, 0);
  }
  scrollTo(left, top) { Object.assign(this, { scrollLeft: left, scrollTop: top }); }
  scrollIntoView() { this.document.revealed.push(this.id); }
  click() { this.document.clicked.push(this); }
  focus(options = {}) {
    this.document.activeElement = this;
    this.focused = options;
  }

  addEventListener(name, call) { this.listeners[name] = call; }
  // Calls the listener of an event, and returns the event. Fails if there is none.
  send(name, event = {}) {
    const sent = { target: this, isPrevented: false, preventDefault() { this.isPrevented = true; }, ...event };
    this.listeners[name](sent);
    return sent;
  }
}

const ENTITIES = { lt: '<', amp: '&' };
const plain = (html) => html.replace(/<[^>]*>/g, '').replace(/&(?:#(\d+)|(lt|amp));/g, (_, code, name) => (code ? String.fromCharCode(code) : ENTITIES[name]));

export class Document extends Element {
  revealed = [];
  clicked = [];
  // The elements of the HTML by identifier; none is ever removed.
  parsed = new Map();
  commands = [];
  // Whether the browser executes commands.
  isObedient = true;

  constructor(html) {
    super(null, 'document');
    this.document = this;
    this.#parse(html);
    this.body = this.all.find((it) => it.tagName === 'body');
    this.activeElement = this.body;
  }

  #parse(html) {
    let parent = this;
    for (const [, end, tag, words] of html.matchAll(/<(\/)?([a-z]\w*)((?:\s+[\w-]+(?:="[^"]*")?)*)\s*>/g)) {
      if (end) parent = parent.parentElement;
      else {
        const it = this.createElement(tag);
        for (const [, name, value] of words.matchAll(/([\w-]+)(?:="([^"]*)")?/g)) this.#set(it, name, value ?? '');
        parent.append(it);
        if (!VOID.has(tag)) parent = it;
      }
    }
  }

  #set(it, name, value) {
    it.setAttribute(name, value);
    if (name === 'class') it.className = value;
    if (name === 'id') this.parsed.set(it.id = value, it);
    if (name === 'hidden') it.hidden = true;
  }

  createElement(tagName) { return tagName === 'canvas' ? { getContext: () => ({ measureText: (text) => ({ width: WIDTH * [...text].length }) }) } : new Element(this, tagName); }
  getElementById(id) { return this.parsed.get(id) ?? this.first((it) => it.id === id); }

  // Replaces the selection of the text area, like a user who types.
  execCommand(name, _, text = '') {
    this.commands.push(name);
    if (!this.isObedient) return false;
    const it = this.activeElement, { selectionStart: start, selectionEnd: end, value } = it;
    const put = name === 'insertHTML' ? plain(text) : text;
    it.value = value.slice(0, start) + put + value.slice(end);
    it.setSelectionRange(start + put.length, start + put.length);
    it.send('input');
    return true;
  }
}
