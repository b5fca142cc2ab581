// A worker that runs one module for the page: instantiates it, if it has no imports, and calls its exported functions.
import { printedValue } from './values.js';

let instance;

const tasks = {
  // Instantiates a module without imports. The reply has `isValid`, `isStarted` if there is an instance, and the `error` of one that could not be made.
  async start({ bytes }) {
    const module = await WebAssembly.compile(bytes);
    if (WebAssembly.Module.imports(module).length > 0) return { isValid: true, isStarted: false };
    try {
      instance = await WebAssembly.instantiate(module);
    } catch (error) {
      return { isValid: true, isStarted: false, error: String(error) };
    }
    return { isValid: true, isStarted: true };
  },

  call({ name, given }) {
    const returned = instance.exports[name](...given);
    const results = Array.isArray(returned) ? returned : [returned];
    return { results: results.filter((it) => it !== undefined).map(printedValue) };
  },
};

onmessage = async ({ data }) => {
  try {
    postMessage(await tasks[data.task](data));
  } catch (error) {
    postMessage({ error: String(error) });
  }
};
