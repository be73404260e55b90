// Headless Chromium, driven over the pipe of its debugging protocol.

import { spawn } from 'node:child_process';
import { resolve } from 'node:path';
import { Browser, SIZE } from './browser.mjs';

/** A tab of a browser that was started for it. */
export class Chromium extends Browser {
  #process;
  #next = 1;
  #held = '';
  #waiting = new Map();
  #session;
  #requests = [];

  /** @param {string} program @param {string} url */
  static async open(program, url) {
    const browser = new Chromium('chromium');
    browser.#start(program);
    const { targetInfos } = await browser.send('Target.getTargets');
    const { sessionId } = await browser.send('Target.attachToTarget', { targetId: targetInfos.find(({ type }) => type === 'page').targetId, flatten: true });
    browser.#session = sessionId;
    for (const domain of ['Network', 'Page', 'Runtime', 'Log', 'Accessibility']) {
      await browser.send(`${domain}.enable`);
    }
    await browser.go(url);
    return browser;
  }

  #start(program) {
    const flags = ['--headless', '--no-sandbox', '--disable-gpu', '--no-first-run', `--user-data-dir=${this.profile}`, '--remote-debugging-pipe', `--window-size=${SIZE.width},${SIZE.height}`];
    this.#process = spawn(program, [...flags, 'about:blank'], { stdio: ['ignore', 'ignore', 'ignore', 'pipe', 'pipe'] });
    this.#process.stdio[4].on('data', data => this.#hear(data));
  }

  #hear(data) {
    const parts = (this.#held + data).split('\0');
    this.#held = parts.pop();
    for (const part of parts) {
      const told = JSON.parse(part);
      const waits = this.#waiting.get(told.id);
      this.#waiting.delete(told.id);
      if (waits) {
        (told.error ? waits.reject : waits.resolve)(told.error ? new Error(JSON.stringify(told.error)) : told.result);
      } else if (told.method === 'Network.requestWillBeSent') {
        this.#requests.push(told.params.request.url);
      } else if (told.method === 'Runtime.exceptionThrown') {
        this.errors.push(JSON.stringify(told.params.exceptionDetails));
      } else if (told.method === 'Log.entryAdded' && told.params.entry.level === 'error') {
        this.errors.push(told.params.entry.text);
      }
    }
  }

  /** The number of its process. */
  get process() {
    return this.#process.pid;
  }

  send(method, params = {}) {
    return new Promise((yes, no) => {
      const id = this.#next++;
      this.#waiting.set(id, { resolve: yes, reject: no });
      this.#process.stdio[3].write(`${JSON.stringify({ id, method, params, ...(this.#session && { sessionId: this.#session }) })}\0`);
    });
  }

  async go(url) {
    await this.send('Page.navigate', { url });
    await this.until(`document.readyState === "complete" && location.href === ${JSON.stringify(url)}`);
  }

  /** What went wrong in the page. */
  async failures() {
    return this.errors;
  }

  /** What the page asked of the network. */
  async requested() {
    return this.#requests;
  }

  /** What an expression of the page gives, also if that is a promise. */
  async ask(expression) {
    const { result, exceptionDetails } = await this.send('Runtime.evaluate', { expression, awaitPromise: true, returnByValue: true, userGesture: true });
    if (exceptionDetails) {
      throw new Error(exceptionDetails.exception?.description ?? exceptionDetails.text);
    }
    return result.value;
  }

  /** Drops files as a hand does. */
  async drop(files) {
    const data = { items: [], files: files.map(file => resolve(file)), dragOperationsMask: 1 };
    for (const type of ['dragEnter', 'dragOver', 'drop']) {
      await this.send('Input.dispatchDragEvent', { type, x: 300, y: 100, data });
    }
  }

  async key(key, code = key) {
    for (const type of ['keyDown', 'keyUp']) {
      await this.send('Input.dispatchKeyEvent', { type, key, code, text: type === 'keyDown' && key === 'Enter' ? '\r' : undefined, windowsVirtualKeyCode: { Tab: 9, Enter: 13, ArrowRight: 39, ArrowDown: 40, End: 35 }[key] });
    }
  }

  async mouse(type, x, y) {
    await this.send('Input.dispatchMouseEvent', { type, x, y, button: 'left', buttons: type === 'mouseReleased' ? 0 : 1, clickCount: 1 });
  }

  /** A window of another width, in a light or a dark theme. */
  async look({ width = SIZE.width, height = SIZE.height, scale = 1, dark = false }) {
    await this.send('Emulation.setDeviceMetricsOverride', { width, height, deviceScaleFactor: scale, mobile: false });
    await this.send('Emulation.setEmulatedMedia', { features: [{ name: 'prefers-color-scheme', value: dark ? 'dark' : 'light' }] });
  }

  async shot() {
    return Buffer.from((await this.send('Page.captureScreenshot', { format: 'png' })).data, 'base64');
  }

  /** What of the page assistive software is told to be operable, by role and name. */
  async operable() {
    const { nodes } = await this.send('Accessibility.getFullAXTree');
    const roles = ['button', 'tab', 'searchbox', 'textbox', 'checkbox', 'progressbar', 'table', 'grid', 'tabpanel', 'region'];
    return nodes.filter(({ ignored, role }) => !ignored && roles.includes(role?.value)).map(({ role, name }) => ({ role: role.value, name: name?.value ?? '' }));
  }

  async close() {
    this.#session = undefined;
    await this.end(this.#process, () => this.send('Browser.close').catch(() => {}));
  }
}
