// A worker as the page calls it.

import { byId } from './dom.mjs';
import { unpacked } from './packed.mjs';

// compiled once for all workers
const engine = unpacked('module').then(bytes => WebAssembly.compile(bytes));
const code = URL.createObjectURL(new Blob([byId('worker').textContent], { type: 'text/javascript' }));

const STOPPED = 'it was stopped';

/** A call failed: `fault` says by which rule, if a file is refused. */
export class CallError extends Error {
  constructor({ message, fault }) {
    super(message);
    this.fault = fault;
  }
}

/** A worker, whose calls are promises. */
export class Helper {
  /** one that was started before it is needed @type {Helper | null} */
  static #spare = null;

  #worker = new Worker(code);
  #waiting = new Map();
  #next = 1;
  #started;
  /** why it answers no more */
  #ended = '';

  /** Starts a worker that the first who needs one takes, so that a file does not wait for it. */
  static prepare() {
    Helper.#spare = new Helper();
  }

  /** A worker that nobody has. */
  static take() {
    const taken = Helper.#spare ?? new Helper();
    Helper.#spare = null;
    return taken;
  }

  constructor() {
    this.#worker.onmessage = ({ data }) => this.#hear(data);
    this.#worker.onerror = event => this.#fail(event.message || 'the worker failed');
    this.#started = engine.then(module => this.#send('start', [module], {}));
  }

  /**
   * What a call of the worker returns.
   * @param {string} call
   * @param {unknown[]} words
   * @param {{ progress?: (progress: unknown) => void, moved?: ArrayBuffer[] }} [options] what is told before it returns, and what of the
   * words is in the memory of the worker from then on, and no more in that of the page
   */
  async call(call, words = [], options = {}) {
    await this.#started;
    return this.#send(call, words, options);
  }

  /** Ends the worker, whatever it does. */
  stop() {
    this.#worker.terminate();
    this.#fail(STOPPED);
  }

  #send(call, words, { progress, moved = [] }) {
    const id = this.#next++;
    return new Promise((resolve, reject) => {
      if (this.#ended) {
        reject(new CallError({ message: this.#ended }));
        return;
      }
      this.#waiting.set(id, { resolve, reject, progress });
      this.#worker.postMessage({ id, call, words }, moved);
    });
  }

  #hear({ id, progress, result, error }) {
    const waits = this.#waiting.get(id);
    if (!waits) {
      return;
    }
    if (progress !== undefined) {
      waits.progress?.(progress);
      return;
    }
    this.#waiting.delete(id);
    if (error) {
      waits.reject(new CallError(error));
    } else {
      waits.resolve(result);
    }
  }

  #fail(message) {
    this.#ended = message;
    for (const { reject } of this.#waiting.values()) {
      reject(new CallError({ message }));
    }
    this.#waiting.clear();
  }
}
