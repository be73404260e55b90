// Texts of a file: the readable page, the lines of JSON, and the manifest.

import { copy, count, element } from './dom.mjs';
import { nameOf } from './names.mjs';

// what a browser shows without a pause; the rest can be copied
const MOST_LETTERS = 200_000;
const MOST_ITEMS = 500;

/** A replacer for lines of JSON that shortens long lists, and leaves out what comes after more letters than are shown. */
export function shortening() {
  let letters = 0;
  return (_, value) => {
    if (letters > MOST_LETTERS) {
      return undefined;
    }
    letters += typeof value === 'string' ? value.length : 1;
    return Array.isArray(value) && value.length > MOST_ITEMS ? [`the first ${count(MOST_ITEMS)} of ${count(value.length)}:`, ...value.slice(0, MOST_ITEMS)] : value;
  };
}

/** A text of a file. */
export class TextView {
  #session;
  #id;
  #text = element('pre', { tabindex: 0 }, 'A moment ..');
  /** what the text lacks, which stands before what a file may say itself */
  #rest = element('p', { class: 'hint', hidden: true });

  /**
   * @param {import('./session.mjs').Session} session
   * @param {'page' | 'json' | 'manifest'} id
   * @param {string} title
   * @param {(words: string) => void} tell
   */
  constructor(session, id, title, tell) {
    this.#session = session;
    this.#id = id;
    this.#text.setAttribute('aria-label', title);
    this.node = element('div', {},
      element('div', { class: 'tools' }, element('button', { type: 'button', click: async () => copy(await this.#told(), title, tell) }, 'Copy all')),
      this.#rest, this.#text);
    this.#show();
  }

  async #show() {
    const text = await this.#told(shortening(), 1);
    this.#text.textContent = text.slice(0, MOST_LETTERS);
    const { missing } = this.#session;
    const lacks = [
      this.#id === 'json' && missing && `This lacks the other tables: ${missing}.`,
      text.length > MOST_LETTERS && `These are the first ${count(MOST_LETTERS)} letters; what is copied has all.`,
    ].filter(Boolean);
    this.#rest.hidden = !lacks.length;
    this.#rest.textContent = lacks.join(' ');
  }

  /** The text, where the lines of JSON are written so. */
  #told(replacer, indent) {
    const { members, line } = this.#session;
    if (this.#id === 'manifest') {
      return nameOf(line, 'manifest');
    }
    if (this.#id === 'page') {
      return this.#session.page([]).catch(error => error.message);
    }
    // the members are shortened as other lists are, but stay lines of their own
    const shown = replacer ? replacer('', members) : members;
    return [...shown, line].map(each => JSON.stringify(each, replacer, indent)).join('\n');
  }
}
