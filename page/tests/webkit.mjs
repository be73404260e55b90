// WebKit, the engine of Safari, in the window of a display that is not shown. It is driven by HTTP over its WebDriver.

import { spawn } from 'node:child_process';
import { once } from 'node:events';
import { DrivenBrowser } from './webdriver.mjs';

const SCREEN = '1600x1200x24';
const TRIES = 150;
const TRY_MILLISECONDS = 200;
// the paths of the commands, which other browsers call by names
const PATHS = {
  SetTimeouts: 'timeouts', SetWindowRect: 'window/rect', Navigate: 'url', ExecuteAsyncScript: 'execute/async', FindElement: 'element', ElementSendKeys: 'element/:id/value', TakeScreenshot: 'screenshot',
};

/** A window of a browser that was started for it. */
export class WebKit extends DrivenBrowser {
  #display;
  #process;
  #base;
  #session;

  /** @param {string} program WebKitWebDriver @param {string} url */
  static async open(program, url) {
    const browser = new WebKit('webkit');
    await browser.#start(program);
    await browser.begin(url);
    return browser;
  }

  async #start(program) {
    const port = 40_000 + (process.pid % 20_000);
    // the display says its number as soon as it can be used
    this.#display = spawn('Xvfb', ['-displayfd', '3', '-nolisten', 'tcp', '-screen', '0', SCREEN], { stdio: ['ignore', 'ignore', 'ignore', 'pipe'] });
    const ended = once(this.#display, 'exit').then(() => {
      throw new Error('Xvfb shows nothing');
    });
    ended.catch(() => {});
    const [number] = await Promise.race([once(this.#display.stdio[3], 'data'), ended]);
    const environment = { ...process.env, DISPLAY: `:${String(number).trim()}`, HOME: this.profile, XDG_RUNTIME_DIR: this.profile };
    this.#process = spawn(program, [`--port=${port}`], { stdio: 'ignore', env: environment });
    this.#base = `http://127.0.0.1:${port}`;
    for (let tries = 0; !(await fetch(`${this.#base}/status`).catch(() => null)); tries += 1) {
      if (tries > TRIES) {
        throw new Error('WebKitWebDriver does not answer');
      }
      await new Promise(wake => setTimeout(wake, TRY_MILLISECONDS));
    }
    const { sessionId } = await this.#ask('POST', '/session', { capabilities: {} });
    this.#session = `/session/${sessionId}`;
  }

  /** What a request to the driver gives. */
  async #ask(method, path, words) {
    const answer = await fetch(this.#base + path, { method, body: words && JSON.stringify(words) });
    const { value } = await answer.json();
    if (!answer.ok) {
      throw new Error(`${value.error}: ${value.message}`);
    }
    return value;
  }

  /** What a command of WebDriver gives. @param {string} command @param {object} parameters */
  send(command, parameters) {
    const path = `${this.#session}/${PATHS[command].replace(':id', parameters.id)}`;
    return command === 'TakeScreenshot' ? this.#ask('GET', path) : this.#ask('POST', path, parameters);
  }

  async close() {
    await this.#ask('DELETE', this.#session).catch(() => {});
    await this.end(this.#process, () => this.#process.kill());
    this.#display.kill();
  }
}
