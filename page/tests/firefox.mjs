// Headless Firefox, driven over its Marionette port.

import { spawn } from 'node:child_process';
import { writeFileSync } from 'node:fs';
import { connect } from 'node:net';
import { join } from 'node:path';
import { DrivenBrowser } from './webdriver.mjs';

/** A window of a browser that was started for it. */
export class Firefox extends DrivenBrowser {
  #process;
  #socket;
  #next = 1;
  #held = Buffer.alloc(0);
  #waiting = new Map();

  /** @param {string} program @param {string} url */
  static async open(program, url) {
    const browser = new Firefox('firefox');
    await browser.#start(program);
    await browser.send('NewSession');
    await browser.begin(url);
    return browser;
  }

  async #start(program) {
    const port = 20_000 + (process.pid % 20_000);
    writeFileSync(join(this.profile, 'user.js'), `user_pref("marionette.port", ${port});\n`);
    this.#process = spawn(program, ['--headless', '--marionette', '--no-remote', '--profile', this.profile], { stdio: 'ignore' });
    for (let tries = 0; !this.#socket; tries += 1) {
      this.#socket = await new Promise(told => {
        const socket = connect(port, '127.0.0.1', () => told(socket));
        socket.on('error', () => setTimeout(told, 200, undefined));
      });
      if (tries > 150) {
        throw new Error('Firefox does not answer');
      }
    }
    this.#socket.on('data', data => this.#hear(data));
  }

  #hear(data) {
    this.#held = Buffer.concat([this.#held, data]);
    for (;;) {
      const colon = this.#held.indexOf(':');
      const length = Number(this.#held.subarray(0, colon));
      if (colon < 0 || this.#held.length < colon + 1 + length) {
        return;
      }
      const told = JSON.parse(this.#held.subarray(colon + 1, colon + 1 + length));
      this.#held = this.#held.subarray(colon + 1 + length);
      if (Array.isArray(told)) {
        const [, id, error, result] = told;
        const waits = this.#waiting.get(id);
        this.#waiting.delete(id);
        (error ? waits.reject : waits.resolve)(error ? new Error(`${error.error}: ${error.message}`) : (result?.value ?? result));
      }
    }
  }

  /** What a command of WebDriver gives. @param {string} command @param {object} parameters */
  send(command, parameters = {}) {
    return this.#write(`WebDriver:${command}`, parameters);
  }

  #write(name, parameters) {
    return new Promise((yes, no) => {
      const id = this.#next++;
      this.#waiting.set(id, { resolve: yes, reject: no });
      const text = JSON.stringify([0, id, name, parameters]);
      this.#socket.write(`${Buffer.byteLength(text)}:${text}`);
    });
  }

  async close() {
    await this.end(this.#process, () => this.#write('Marionette:Quit', { flags: ['eForceQuit'] }).catch(() => {}));
    this.#socket.destroy();
  }
}
