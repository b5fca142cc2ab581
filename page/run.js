// The page's side of the worker that runs a module (runner.js).

// In milliseconds: the longest time of a task, after which the worker is ended.
export const LIMIT = 5000;

export class Runner {
  #worker = null;
  #reply = null;

  // Whether a task has no reply yet.
  get isBusy() { return this.#reply !== null; }

  // Gives the worker a task, and returns its reply: an `error`, or the task's result; `isLate` after the time limit; null if `stop` was called before.
  ask(message) {
    this.#worker ??= this.#start();
    return new Promise((done) => {
      const late = setTimeout(() => this.#end({ isLate: true }), LIMIT);
      this.#reply = (reply) => {
        clearTimeout(late);
        this.#reply = null;
        done(reply);
      };
      this.#worker.postMessage(message);
    });
  }

  // Ends the worker, and with it the module's instance.
  stop() { this.#end(null); }

  #start() {
    const worker = new Worker('runner.js', { type: 'module' });
    worker.onmessage = ({ data }) => this.#reply?.(data);
    worker.onerror = () => this.#end({ error: 'the worker could not be started' });
    return worker;
  }

  #end(reply) {
    this.#worker?.terminate();
    this.#worker = null;
    this.#reply?.(reply);
  }
}
