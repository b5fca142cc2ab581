// Runs the tests of the page's parts over mutants of JavaScript, for mutate.py. A test is a module whose last loop calls its `checks` in turn. A thread
// runs many mutants, each with new instances of the mutated module and of those that import it; the other modules are loaded once. For each mutant it
// calls only checks that execute the mutated code: first those that killed other mutants of the function and of the file, then the fastest, up to the
// first that fails. A failure in an order of checks that also fails without a mutant does not count; then the checks are called in their own order.
// usage: node --experimental-vm-modules run_scripts.mjs PROGRAM JOBS < MUTANTS
//
// A mutant is a line of JSON: `file`, `function`, `start` and `end` in UTF-16 code units, `text`, which replaces them, and `tests`, the names of the
// tests. Prints a line for each: its index, its outcome, and the test and the check that killed it.
import assert from 'node:assert/strict';
import { spawnSync } from 'node:child_process';
import { readFileSync } from 'node:fs';
import { Session } from 'node:inspector/promises';
import { builtinModules } from 'node:module';
import { dirname, join, normalize } from 'node:path';
import { fileURLToPath, pathToFileURL } from 'node:url';
import { isDeepStrictEqual } from 'node:util';
import vm from 'node:vm';
import { Worker, isMainThread, parentPort, workerData } from 'node:worker_threads';

const ROOT = fileURLToPath(new URL('../..', import.meta.url));
const NOTHING = { file: '', start: 0, end: 0, text: '' };
// The number of mutants after which a thread is replaced.
const BATCH = 150;
// The tests in the order in which they run.
const ORDER = ['parts.mjs', 'faked.mjs', 'paged.mjs'];
// In seconds: the processor time that a check may take with a mutant, besides EACH of the time that it takes without one; and how long a thread may
// wait for nothing.
const LEAST = 0.15, EACH = 4, LONGEST = 8;
const LOOP = /for \(const (\w+) of checks\) await \1\(\);/;
const pause = (milliseconds) => new Promise((done) => setTimeout(done, milliseconds));

// Returns the processor time of a thread of this process, in seconds.
function used(thread) {
  try {
    return Number(readFileSync(`/proc/${thread}/schedstat`, 'latin1').split(' ')[0]) / 1e9;
  } catch {
    return 0;
  }
}

// ---- the thread that runs a test

// Replaces `assert`, whose messages about long values take long.
const differ = () => { throw new Error('the values differ'); };
const quick = Object.assign((is) => is || differ(), assert, {
  ok: (is) => is || differ(),
  equal: (one, other) => Object.is(one, other) || differ(),
  deepEqual: (one, other) => isDeepStrictEqual(one, other) || differ(),
});

// Remembers the results of a function, by the values of its arguments.
function remembered(call) {
  const known = [];
  return (...given) => {
    let found = known.find((it) => isDeepStrictEqual(it.given, given));
    if (!found) known.push(found = { given: structuredClone(given), result: call(...given) });
    return found.result;
  };
}

const OURS = {
  'node:assert/strict': { default: quick },
  'node:child_process': { spawnSync: remembered(spawnSync) },
};

// A module is compiled once, however often a test does so.
function rememberModules() {
  const { Module } = WebAssembly;
  const compiled = remembered((bytes) => new Module(bytes));
  const bytesOf = (given) => Buffer.from(given instanceof ArrayBuffer ? given : given.slice());
  WebAssembly.Module = new Proxy(Module, { construct: (_, [given]) => compiled(bytesOf(given)) });
  WebAssembly.compile = async (given) => compiled(bytesOf(given));
}

const sources = new Map();
const sourceOf = (path) => sources.get(path) ?? sources.set(path, readFileSync(path, 'utf8')).get(path);
// The page's copy of a source in page/out is the source itself.
const pathOf = (name, from) => normalize(join(dirname(from), name)).replace('/page/out/', '/page/');

// Returns the paths of a module and of all that it imports.
function importsOf(path, found = new Set()) {
  if (found.has(path)) return found;
  found.add(path);
  for (const [, name] of sourceOf(path).matchAll(/(?:from|import|import\()\s*['"](\.{1,2}\/[\w./-]+)['"]/g)) importsOf(pathOf(name, path), found);
  return found;
}

// The modules that are loaded once: those without state.
const shared = new Map();

// The instances of the modules over one mutant.
class Instances {
  #modules = new Map();

  constructor(mutant, test) { Object.assign(this, { mutant, test }); }

  // Returns the text of a source.
  #textOf(path) {
    const { file, start, end, text } = this.mutant, source = sourceOf(path);
    if (path === this.test) return source.replace(LOOP, 'await globalThis.callChecks(checks);');
    return path === join(ROOT, file) ? source.slice(0, start) + text + source.slice(end) : source;
  }

  #isShared(path) { return path !== this.test && !/^let /m.test(sourceOf(path)) && !importsOf(path).has(join(ROOT, this.mutant.file)); }

  // A question mark in a path begins the name of another instance of the module.
  moduleAt(name) {
    const [path] = name.split('?');
    const modules = this.#isShared(path) ? shared : this.#modules, known = modules.get(name);
    if (known) return known;
    const made = new vm.SourceTextModule(this.#textOf(path), {
      identifier: path,
      initializeImportMeta: (meta) => { meta.url = pathToFileURL(path).href; },
      importModuleDynamically: (name) => this.evaluated(name, path),
    });
    modules.set(name, made);
    return made;
  }

  async #linked(name, from) {
    if (!name.startsWith('node:') && !builtinModules.includes(name)) return this.moduleAt(pathOf(name, from));
    const found = OURS[name] ?? await import(name), names = Object.keys(found);
    return new vm.SyntheticModule(names, function fill() { for (const it of names) this.setExport(it, found[it]); });
  }

  async evaluated(name, from) {
    const it = await this.#linked(name, from);
    if (it.status === 'unlinked') await it.link((other, { identifier }) => this.#linked(other, identifier));
    await it.evaluate();
    return it;
  }
}

// Records the code that is executed from one call of `take` to the next.
async function recorder() {
  const session = new Session();
  session.connect();
  await session.post('Profiler.enable');
  await session.post('Profiler.startPreciseCoverage', { callCount: true, detailed: true });
  return async () => {
    const { result } = await session.post('Profiler.takePreciseCoverage');
    const ours = result.filter(({ url }) => url.startsWith(`${pathToFileURL(ROOT)}page/`));
    return ours.map(({ url, functions }) => ({ file: fileURLToPath(url).slice(ROOT.length), ranges: functions.flatMap((it) => it.ranges) }));
  };
}

let isBroken = false;

// Runs a test over a mutant: its checks of these names, or all.
async function outcomeOf(test, mutant, names, take) {
  const path = join(ROOT, 'page', test), instances = new Instances(mutant, path), stages = [];
  const begin = async (name) => {
    if (take && stages.length > 0) Object.assign(stages.at(-1), { seconds: used('thread-self') - stages.at(-1).began, code: await take() });
    stages.push({ name, began: used('thread-self') });
    parentPort.postMessage({ begun: name });
  };
  globalThis.callChecks = async (checks) => {
    for (const name of names ?? checks.map((it) => it.name)) {
      await begin(name);
      await checks.find((it) => it.name === name)();
      if (isBroken) throw new Error('a promise was rejected');
    }
    await begin('end');
  };
  isBroken = false;
  try {
    if (mutant.file) instances.moduleAt(join(ROOT, mutant.file));
  } catch {
    return { outcome: 'uncompiled' };
  }
  try {
    await begin('start');
    await instances.evaluated(`./${test}`, join(ROOT, 'page/test'));
    return { outcome: 'survived', stages };
  } catch (error) {
    // Lets what the test began end.
    await pause(10);
    return { outcome: 'failed', at: stages.at(-1).name, why: String(error?.stack) };
  }
}

function serve({ test, program }) {
  process.argv = ['node', test, program];
  process.exit = () => {};
  console.log = () => {};
  console.error = () => {};
  for (const event of ['unhandledRejection', 'uncaughtException']) process.on(event, () => { isBroken = true; });
  rememberModules();
  parentPort.on('message', async ({ mutant, names, isRecorded }) => {
    const take = isRecorded ? await recorder() : null;
    parentPort.postMessage({ done: await outcomeOf(test, mutant, names, take) });
  });
  parentPort.postMessage({ thread: readFileSync('/proc/thread-self/stat', 'latin1').split(' ')[0] });
}

// ---- the thread that starts the others

class Runner {
  #worker = null;
  #count = 0;

  constructor(test, program, seconds) { Object.assign(this, { test, program, seconds }); }

  async #start() {
    this.#worker = new Worker(new URL(import.meta.url), { workerData: { test: this.test, program: this.program }, stdout: true, resourceLimits: { maxOldGenerationSizeMb: 1500 } });
    this.#worker.on('error', () => this.settle?.({ outcome: 'failed', isGone: true }));
    this.#worker.on('exit', () => this.settle?.({ outcome: 'failed', isGone: true }));
    this.#count = 0;
    await new Promise((done) => this.#worker.on('message', ({ thread, begun, done: outcome }) => {
      if (thread) done(this.thread = `self/task/${thread}`);
      if (begun) Object.assign(this, { at: begun, began: used(this.thread), before: -1, idle: performance.now() });
      if (outcome) this.settle?.(outcome);
    }));
  }

  async stop() {
    const worker = this.#worker;
    this.#worker = null;
    worker?.removeAllListeners();
    worker?.on('error', () => {});
    await worker?.terminate();
  }

  // Returns why the thread does not go on, if so.
  #fault() {
    const now = used(this.thread);
    if (now - this.began > LEAST + EACH * (this.seconds.get(this.at) ?? 60)) return 'timeout';
    if (now > this.before) Object.assign(this, { before: now, idle: performance.now() });
    return performance.now() - this.idle > 1000 * LONGEST ? 'failed' : null;
  }

  async run(mutant, names, isRecorded = false) {
    if (this.#count >= BATCH) await this.stop();
    if (!this.#worker) await this.#start();
    this.#count += 1;
    Object.assign(this, { at: 'start', began: used(this.thread), before: -1, idle: performance.now() });
    const outcome = await new Promise((done) => {
      this.settle = done;
      this.watch = setInterval(() => {
        const fault = this.#fault();
        if (fault) done({ outcome: fault, isGone: true });
      }, 50);
      this.#worker.postMessage({ mutant, names, isRecorded });
    });
    clearInterval(this.watch);
    this.settle = null;
    if (outcome.isGone) await this.stop();
    return { at: this.at, ...outcome };
  }
}

// Returns how often the code at an offset was executed: the count of the innermost range.
function countAt(ranges, offset) {
  let best = null;
  for (const it of ranges) {
    if (it.startOffset <= offset && offset < it.endOffset && (!best || it.endOffset - it.startOffset <= best.endOffset - best.startOffset)) best = it;
  }
  return best?.count ?? 0;
}

// The range of the right operand of a logical operator begins at the operator.
const isExecuted = (stage, { file, start }) => stage.code.some((it) => it.file === file && (countAt(it.ranges, start) > 0 || countAt(it.ranges, start - 1) > 0));

class Tests {
  // How many mutants of a function or a file a check has killed.
  #kills = new Map();
  // The orders of checks that pass without a mutant.
  #valid = new Map();
  seconds = new Map();

  constructor(test, program) {
    Object.assign(this, { test, program });
    this.first = this.runner();
  }

  runner() { return new Runner(this.test, this.program, this.seconds); }

  async measure() {
    const { outcome, stages, why } = await this.first.run(NOTHING, null, true);
    if (outcome !== 'survived') throw new Error(`${this.test} fails without a mutant: ${outcome} ${why}`);
    this.stages = stages.filter((it) => it.code);
    await this.first.stop();
    for (const { name, seconds } of this.stages) this.seconds.set(name, seconds);
    this.names = this.stages.map((it) => it.name).slice(1);
    // The checks may need the first one.
    this.always = await this.isValid(this.first, this.names.slice(-1)) ? [] : this.names.slice(0, 1);
    // If they pass in reverse, they are taken to pass in any order.
    this.isFree = await this.isValid(this.first, [...this.always, ...this.names.slice(this.always.length).toReversed()]);
    console.error(`run_scripts.mjs: ${this.test}: ${this.stages.map((it) => `${it.name} ${it.seconds.toFixed(2)} s`).join(', ')}; first: ${this.always}`);
  }

  #keysOf({ file, function: name }) { return [`${file} ${name}`, file]; }

  record(mutant, check) {
    for (const key of this.#keysOf(mutant)) this.#kills.set(`${key} ${check}`, (this.#kills.get(`${key} ${check}`) ?? 0) + 1);
  }

  // Returns the checks to call for a mutant, in order.
  planFor(mutant) {
    const checks = this.stages.slice(1);
    const isOutside = mutant.function === 'module', reached = checks.filter((it) => isOutside || isExecuted(it, mutant));
    // What the start and the first check execute may change what the others see.
    const isAtStart = this.stages.slice(0, 1 + this.always.length).some((it) => isExecuted(it, mutant));
    if (reached.length === 0 && !isAtStart) return null;
    const those = (isAtStart ? checks : reached).map((it) => it.name).filter((name) => !this.always.includes(name));
    const keys = this.#keysOf(mutant), isReached = new Set(reached.map((it) => it.name));
    // The checks that kill most mutants in a second go first, and last those that only depend on what the mutant changed at the start.
    const killed = (name) => 3 * (this.#kills.get(`${keys[0]} ${name}`) ?? 0) + (this.#kills.get(`${keys[1]} ${name}`) ?? 0) + 0.5;
    const rank = (name) => (isReached.has(name) ? killed(name) : killed(name) / 1000) / (this.seconds.get(name) + 0.005);
    const ranks = new Map(those.map((name) => [name, rank(name)]));
    const compare = (one, other) => ranks.get(other) - ranks.get(one);
    return [...this.always, ...those.sort(compare)];
  }

  // Returns `true` if checks pass in this order without a mutant.
  async isValid(runner, names) {
    const key = names.join();
    if (this.isFree) return true;
    if (!this.#valid.has(key)) this.#valid.set(key, (await runner.run(NOTHING, names)).outcome === 'survived');
    return this.#valid.get(key);
  }

  async outcomeOf(runner, mutant) {
    const plan = this.planFor(mutant);
    if (!plan) return { outcome: 'survived' };
    const found = await runner.run(mutant, plan);
    if (!['failed', 'timeout'].includes(found.outcome) || found.at === 'start') return found;
    const names = plan.slice(0, plan.indexOf(found.at) + 1);
    if (found.at !== 'end' && await this.isValid(runner, names)) return found;
    return runner.run(mutant, this.names);
  }
}

// Returns `true` if the mutated source is JavaScript.
function isCompiled({ file, start, end, text }) {
  const source = sourceOf(join(ROOT, file));
  try {
    return Boolean(new vm.SourceTextModule(source.slice(0, start) + text + source.slice(end)));
  } catch {
    return false;
  }
}

async function main() {
  const [program, jobs] = process.argv.slice(2);
  const mutants = readFileSync(0, 'utf8').split('\n').filter(Boolean).map((line, index) => ({ ...JSON.parse(line), index }));
  const living = new Set(mutants);
  // Survivors are reported as soon as no other test imports the mutated source.
  const names = ORDER.filter((test) => mutants.some((it) => it.tests.includes(test))), last = ({ tests: its }) => names.findLast((test) => its.includes(test));
  for (const it of mutants.filter(({ tests }) => tests.length === 0)) console.log([it.index, isCompiled(it) ? 'survived' : 'uncompiled', ''].join('\t'));
  for (const test of names) {
    const tests = new Tests(test, program), those = [...living].filter((it) => it.tests.includes(test));
    await tests.measure();
    const total = those.length;
    let count = 0;
    const work = async (runner) => {
      for (let it = those.shift(); it; it = those.shift()) {
        const { outcome, at } = await tests.outcomeOf(runner, it);
        if (outcome !== 'survived') living.delete(it);
        if (outcome === 'failed' || outcome === 'timeout') tests.record(it, at);
        count += 1;
        if (count % 100 === 0) console.error(`run_scripts.mjs: ${test}: ${count} of ${total}, ${Math.round(process.cpuUsage().user / 1e6)} s of processor time`);
        if (outcome !== 'survived' || last(it) === test) console.log([it.index, outcome, ['survived', 'uncompiled'].includes(outcome) ? '' : `${test} ${at}`].join('\t'));
      }
      // A mutant must not have changed what the others see.
      const { outcome, at, why } = await runner.run(NOTHING, tests.names);
      if (outcome !== 'survived') throw new Error(`${test} fails at last without a mutant: ${outcome} at ${at} ${why}`);
      await runner.stop();
    };
    await Promise.all([tests.first, ...Array.from({ length: Number(jobs ?? 1) - 1 }, () => tests.runner())].map(work));
  }
  process.exit(0);
}

if (isMainThread) await main(); else serve(workerData);
