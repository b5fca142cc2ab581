// The part of the page on the binary module: its size and bytes, and whether it is valid, or the compiler's error; a button that saves it; and its
// instance, whose functions can be called. All of the module's code runs in a worker.
import { dumped, interfaceOf } from './binary.js';
import { $, cutLines, element, plural, summaryOf, tell, visible } from './dom.js';
import { LIMIT, Runner } from './run.js';
import { argumentOf, isCallable, printedValue } from './values.js';

// In lines of sixteen bytes: the longest part of a binary module that is printed.
const DUMPED = 256;
// The largest number of imports and exports in the list, of functions in the menu, and of lines of results.
const LISTED_FIELDS = 100;
const MENU = 1000;
const RESULTS = 100;
const SECONDS = LIMIT / 1000;
// In milliseconds: the time after which the address of a file that is saved is withdrawn.
const SAVING = 1000;

export class ModulePart {
  #runner = new Runner();
  #bytes = null;
  // The exported functions that can be called.
  #functions = [];
  #results = [];

  constructor() {
    $('save').addEventListener('click', () => this.#save());
    $('run').addEventListener('click', () => this.#run());
    $('callee').addEventListener('change', () => this.#choose());
    $('call').addEventListener('submit', (event) => {
      event.preventDefault();
      this.#call();
    });
  }

  // Shows the result of the compiler, or a note instead. Without both, the part is hidden. A module with an error is not valid. An instance of an earlier
  // module ends.
  show(compiled, note = '', longest = Infinity) {
    const { bytes = null, error = null } = compiled ?? {};
    $('module-part').hidden = !compiled && !note;
    this.#end();
    this.#bytes = bytes;
    tell('module-go', error ? summaryOf(error.printed) : '');
    tell('module-message', error ? cutLines(error.printed, longest) : '');
    tell('module-said', bytes ? `The text is a ${error ? 'module that is not valid' : 'valid module'}, whose binary form has ${plural(bytes.length, 'byte')}${this.#rest(bytes)}.` : note);
    tell('bytes', bytes ? dumped(bytes, DUMPED) : '');
    $('built').hidden = !bytes;
  }

  #rest({ length }) { return length > 16 * DUMPED ? `, of which the first ${16 * DUMPED} are shown` : ''; }

  // Ends the instance, and hides its part of the page.
  #end() {
    this.#runner.stop();
    this.#results = [];
    for (const id of ['results', 'ran']) tell(id, '');
    for (const id of ['interface', 'call']) $(id).hidden = true;
  }

  #save() {
    const link = element('a', '');
    link.href = URL.createObjectURL(new Blob([this.#bytes], { type: 'application/wasm' }));
    link.download = 'module.wasm';
    link.click();
    setTimeout(() => URL.revokeObjectURL(link.href), SAVING);
  }

  // Instantiates the module in a new worker.
  async #run() {
    this.#end();
    tell('ran', 'The module is being compiled by the browser.');
    const reply = await this.#runner.ask({ task: 'start', bytes: this.#bytes });
    if (!reply) return;
    if (reply.isLate) tell('ran', `The module was stopped after ${SECONDS} s.`);
    else if (!reply.isValid) tell('ran', `The browser rejects the module: ${reply.error}`);
    else this.#showInterface(reply);
  }

  #showInterface({ isStarted, error }) {
    const { imports, exports } = interfaceOf(this.#bytes);
    const fields = [...imports, ...exports.map(({ field }) => field)];
    const more = fields.length > LISTED_FIELDS ? [`and ${(fields.length - LISTED_FIELDS).toLocaleString('en')} more`] : [];
    $('interface').replaceChildren(...[...fields.slice(0, LISTED_FIELDS), ...more].map((field) => element('li', '', field)));
    $('interface').hidden = fields.length === 0;
    if (error) return tell('ran', `The module could not be instantiated: ${error}`);
    if (!isStarted) return tell('ran', 'The module has imports, so it is not instantiated.');
    this.#functions = exports.filter(({ kind, type }) => kind === 'func' && isCallable(type)).slice(0, MENU);
    $('call').hidden = this.#functions.length === 0;
    $('callee').replaceChildren(...this.#functions.map(({ name }) => element('option', '', visible(name))));
    this.#choose();
    return tell('ran', this.#functions.length > 0 ? 'The module is instantiated.' : 'The module is instantiated. It exports no function of numbers.');
  }

  // The chosen function, or nothing if there are none.
  get #chosen() { return this.#functions[$('callee').selectedIndex]; }

  // Shows an input for each parameter of the chosen function.
  #choose() {
    $('arguments').replaceChildren(...(this.#chosen?.type.params ?? []).map((type, i) => {
      const label = element('label', '', `${type} `), input = element('input', '');
      for (const [name, value] of Object.entries({ type: 'text', autocomplete: 'off', spellcheck: 'false', 'aria-label': `Argument ${i + 1}, ${type}` })) input.setAttribute(name, value);
      input.value = '0';
      label.append(input);
      return label;
    }));
  }

  // Returns the arguments that are typed, or null if one is not a number of its type.
  #arguments() {
    const inputs = [...$('arguments').children].map((it) => it.firstElementChild);
    const given = inputs.map((it, i) => argumentOf(this.#chosen.type.params[i], it.value));
    const wrong = given.indexOf(null);
    for (const [i, it] of inputs.entries()) it.setAttribute('aria-invalid', i === wrong);
    if (wrong < 0) return given;
    tell('ran', `Argument ${wrong + 1} is not an ${this.#chosen.type.params[wrong]}.`);
    inputs[wrong].focus();
    return null;
  }

  async #call() {
    if (this.#runner.isBusy) return;
    const given = this.#arguments(), { name } = this.#chosen;
    if (given === null) return;
    tell('ran', 'The function is running.');
    const reply = await this.#runner.ask({ task: 'call', name, given });
    if (!reply) return;
    tell('ran', '');
    this.#log(`${visible(name)}(${given.map(printedValue).join(', ')})${this.#outcome(reply)}`);
    if (!reply.isLate) return;
    tell('ran', 'The instance has ended. Run the module again for another one.');
    $('call').hidden = true;
    $('run').focus();
  }

  #outcome({ isLate, error, results }) {
    if (isLate) return ` was stopped after ${SECONDS} s`;
    if (error) return `: ${error}`;
    return results.length > 0 ? ` = ${results.join(', ')}` : ' returned no value';
  }

  // Adds a line to the results, which screen readers announce.
  #log(line) {
    this.#results = [...this.#results, line].slice(-RESULTS);
    tell('results', this.#results.join('\n'));
    $('results').scrollTop = $('results').scrollHeight;
  }
}
