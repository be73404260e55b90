// What is the same of the browsers that take the commands of WebDriver.

import { resolve } from 'node:path';
import { Browser, SIZE } from './browser.mjs';

const ELEMENT = 'element-6066-11e4-a52e-4f735466cecf';
const SCRIPT_MILLISECONDS = 60_000;

/** A window of such a browser: `send` of each kind takes a command, by the name that Firefox has for it, and gives its value. */
export class DrivenBrowser extends Browser {
  /** Sets what all sessions begin with, and shows the page. @param {string} url */
  async begin(url) {
    await this.send('SetTimeouts', { script: SCRIPT_MILLISECONDS });
    await this.send('SetWindowRect', SIZE);
    await this.go(url);
  }

  async go(url) {
    await this.#listen();
    await this.send('Navigate', { url });
    await this.#listen();
  }

  /** Takes over what went wrong in the page, and hears of what does from now on. */
  async #listen() {
    this.errors.push(...await this.ask(`(() => {
      const told = (window.testErrors ?? []).splice(0);
      if (!window.testErrors) {
        window.testErrors = [];
        for (const [kind, words] of [['error', ({ message }) => message], ['unhandledrejection', ({ reason }) => String(reason)], ['securitypolicyviolation', ({ blockedURI }) => 'blocked: ' + blockedURI]]) {
          window.addEventListener(kind, event => window.testErrors.push(words(event)));
        }
      }
      return told;
    })()`));
  }

  /** What went wrong in the page. */
  async failures() {
    await this.#listen();
    return this.errors;
  }

  /** What the page that is shown asked of the network. */
  requested() {
    return this.ask('performance.getEntriesByType("resource").map(({ name }) => name)');
  }

  /** What an expression of the page gives, also if that is a promise. */
  async ask(expression) {
    const script = `const told = arguments[arguments.length - 1]; (async () => (${expression}))().then(value => told({ value }), error => told({ error: String(error) }));`;
    // Firefox otherwise forgets what earlier scripts left
    const told = await this.send('ExecuteAsyncScript', { script, args: [], newSandbox: false });
    if (told?.error) {
      throw new Error(told.error);
    }
    return told?.value;
  }

  /** Drops files: they are chosen in an element of the test, and the page gets the event of a drop that carries them. */
  async drop(files) {
    await this.ask("(() => { const input = document.createElement('input'); input.type = 'file'; input.multiple = true; input.id = 'test-input'; document.body.append(input); })()");
    const element = await this.send('FindElement', { using: 'css selector', value: '#test-input' });
    await this.send('ElementSendKeys', { id: element[ELEMENT], text: files.map(file => resolve(file)).join('\n') });
    await this.ask(`(() => {
      const input = document.getElementById('test-input');
      const carried = new DataTransfer();
      for (const file of input.files) carried.items.add(file);
      input.remove();
      for (const type of ['dragenter', 'dragover', 'drop']) document.body.dispatchEvent(new DragEvent(type, { dataTransfer: carried, bubbles: true, cancelable: true }));
    })()`);
  }

  async shot() {
    return Buffer.from(await this.send('TakeScreenshot', { full: false }), 'base64');
  }
}
