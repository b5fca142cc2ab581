// Workers that lex parts of a long text ahead of the page, each with the module over its own memory. The reader accepts their tokens only from an
// offset that it has reached itself, and at which one of them begins.

// In bytes: the length of a stretch; the distance between the reader, which lexes some bytes itself before it draws, and the first stretch; and the
// smallest text for which workers run.
const STRETCH = 1 << 18;
const LEAD = 1 << 20;
const LEAST_TEXT = 1 << 21;
// The largest number of workers, and of stretches that each has at a time, so that no worker waits while the page draws.
const MOST = 4;
const AT_A_TIME = 4;

export class Ahead {
  #module;
  #workers = null;
  #reader = null;
  #flags = {};
  #round = 0;
  #next = 0;

  constructor(module) { this.#module = module; }

  // Starts to lex the text of a reader ahead. Results for earlier texts are dropped.
  begin(reader, flags) {
    this.#round += 1;
    this.#reader = reader.bytes.length >= LEAST_TEXT ? reader : null;
    this.#flags = flags;
    this.#next = 0;
    if (!this.#reader) return;
    this.#workers ??= this.#start();
    for (let i = 0; i < AT_A_TIME; i += 1) for (const worker of this.#workers) this.#assign(worker);
  }

  #start() {
    const count = Math.min(MOST, (navigator.hardwareConcurrency ?? 1) - 1);
    return Array.from({ length: Math.max(0, count) }, () => {
      const worker = new Worker('worker.js', { type: 'module' });
      worker.stretches = [];
      worker.onmessage = ({ data }) => {
        this.#give(worker, data);
        this.#assign(worker);
      };
      worker.onerror = () => this.#leave(worker);
      worker.postMessage({ module: this.#module });
      return worker;
    });
  }

  // Gives a worker the next stretch, if one is left. A single worker leaves every second stretch to the reader.
  #assign(worker) {
    const reader = this.#reader;
    if (reader?.ending !== null || worker.stretches.length === AT_A_TIME) return;
    const from = Math.max(this.#next, reader.lines.back(reader.place + LEAD));
    const to = reader.lines.back(from + STRETCH);
    if (from >= to) return;
    const part = reader.bytes.slice(from, to);
    this.#next = this.#workers.length > 1 ? to : reader.lines.back(to + STRETCH);
    worker.stretches.push({ round: this.#round, from });
    reader.expect(from, to);
    worker.postMessage({ part, from, flags: this.#flags }, [part.buffer]);
  }

  // Stops a worker that failed, and withdraws its stretches.
  #leave(worker) {
    worker.terminate();
    this.#workers = this.#workers.filter((it) => it !== worker);
    while (worker.stretches.length > 0) this.#give(worker, null);
  }

  // Delivers a worker's rows for the first of its stretches, unless another text has begun since.
  #give(worker, rows) {
    const { round, from } = worker.stretches.shift();
    if (round === this.#round) this.#reader?.give(from, rows);
  }
}
