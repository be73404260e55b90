// The list of the files that were dropped: which is shown, how far each is read, and buttons to stop and to close it.

import { byId, element } from './dom.mjs';
import { shownName } from './names.mjs';

const STOPPABLE_MILLISECONDS = 10_000;

/** What the page says of a file's state. */
export const STATES = { waiting: 'waits', reading: 'being read', accepted: 'accepted', refused: 'refused', failed: 'not read' };

/** The list of files. */
export class FileList {
  #list = byId('files');
  /** @type {Map<import('./session.mjs').Session, { node: Element, name: Element, state: Element, progress: Element, end: Element, timer?: number }>} */
  #items = new Map();
  #choose;
  #close;

  /**
   * @param {(session: import('./session.mjs').Session) => void} choose
   * @param {(session: import('./session.mjs').Session) => void} close stops a file that is being read too
   */
  constructor(choose, close) {
    this.#choose = choose;
    this.#close = close;
  }

  /** @param {import('./session.mjs').Session} session */
  add(session) {
    const state = element('span', { class: 'state' });
    const name = element('button', { type: 'button', 'aria-pressed': false, click: () => this.#choose(session) }, state, ` ${shownName(session.name)}`);
    const progress = element('progress', { max: session.length || 1, value: 0, 'aria-label': `How much is read of ${shownName(session.name)}` });
    const end = element('button', { type: 'button', click: () => this.#close(session) });
    const node = element('li', {}, name, progress, end);
    this.#items.set(session, { node, name, state, progress, end });
    this.#list.append(node);
    document.body.classList.add('has-files');
    this.#endBy(this.#items.get(session), 'Close', session);
    this.update(session);
  }

  /** Shows a file's state, and how much of it is read. */
  update(session) {
    const item = this.#items.get(session);
    if (!item) {
      return;
    }
    item.state.textContent = `${STATES[session.state]}:`;
    item.node.className = session.state;
    item.name.disabled = session.isPending;
    item.progress.value = session.read;
    if (session.state === 'reading') {
      item.timer ??= setTimeout(() => this.#endBy(item, 'Stop', session), STOPPABLE_MILLISECONDS);
      return;
    }
    clearTimeout(item.timer);
    this.#endBy(item, 'Close', session);
    if (!session.isPending) {
      item.progress.remove();
    }
  }

  /** Shows which file is chosen. */
  mark(chosen) {
    for (const [session, { name }] of this.#items) {
      name.setAttribute('aria-pressed', String(session === chosen));
    }
  }

  remove(session) {
    const { node, timer } = this.#items.get(session);
    clearTimeout(timer);
    this.#items.delete(session);
    const hadFocus = node.contains(document.activeElement);
    node.remove();
    document.body.classList.toggle('has-files', this.#items.size > 0);
    if (hadFocus) {
      byId('choose').focus();
    }
  }

  #endBy({ end }, word, { name }) {
    end.textContent = word === 'Close' ? '×' : word;
    end.setAttribute('aria-label', `${word} ${shownName(name)}`);
  }
}
