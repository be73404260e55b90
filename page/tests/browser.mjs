// What is the same of all browsers that the tests drive.

import { mkdtempSync, rmSync } from 'node:fs';
import { tmpdir } from 'node:os';
import { join } from 'node:path';

/** How large the window is. */
export const SIZE = { width: 1400, height: 1000 };

const PAUSE_MILLISECONDS = 25;
const ENDING_MILLISECONDS = 5000;

/** A browser that was started for a test, with a profile of its own. */
export class Browser {
  /** what went wrong in the page */
  errors = [];
  #profile;

  /** @param {string} name */
  constructor(name) {
    this.name = name;
    this.#profile = mkdtempSync(join(tmpdir(), `petool-${name}-`));
  }

  /** The folder of its profile. */
  get profile() {
    return this.#profile;
  }

  /** Waits until an expression of the page is true. */
  async until(expression, milliseconds = 60_000) {
    for (const began = Date.now(); !(await this.ask(`Boolean(${expression})`).catch(() => false)); ) {
      if (Date.now() - began > milliseconds) {
        throw new Error(`this did not become true: ${expression}`);
      }
      await new Promise(wake => setTimeout(wake, PAUSE_MILLISECONDS));
    }
  }

  /** Ends its process, at last by force. @param {import('node:child_process').ChildProcess} process @param {() => void} ask asks it to end */
  async end(process, ask) {
    const ended = new Promise(resolve => process.once('exit', resolve));
    ask();
    const timer = setTimeout(() => process.kill('SIGKILL'), ENDING_MILLISECONDS);
    await ended;
    clearTimeout(timer);
    rmSync(this.#profile, { recursive: true, force: true, maxRetries: 5 });
  }
}
