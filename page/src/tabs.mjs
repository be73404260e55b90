// The tabs of what is told of a file.

import { byId, count, element } from './dom.mjs';

/** @typedef {{ id: string, title: string, count?: number }} Tab with how many rows it has */

/** A list of tabs, of which one is chosen. */
export class Tabs {
  #list = byId('tabs');
  #panel = byId('panel');
  #show;
  #taken;
  /** the chosen tab */
  chosen = '';

  /**
   * @param {(id: string) => void} show shows the panel of a tab
   * @param {(id: string) => void} taken is told which tab a user took
   */
  constructor(show, taken) {
    this.#show = show;
    this.#taken = taken;
  }

  /**
   * Offers these tabs. The one that is wanted is chosen, if it is there; or else the chosen one stays, or the first is chosen.
   * @param {Tab[]} tabs
   * @param {string} wanted
   */
  offer(tabs, wanted) {
    const focused = this.#list.contains(document.activeElement) && document.activeElement.id;
    const buttons = tabs.map(tab => this.#button(tab));
    // a button that stays in its place takes a click that began before
    if (buttons.length !== this.#list.children.length || buttons.some((button, index) => button !== this.#list.children[index])) {
      this.#list.replaceChildren(...buttons);
    }
    byId('tables').hidden = !tabs.length;
    const next = [wanted, this.chosen, tabs[0]?.id].find(id => tabs.some(tab => tab.id === id));
    if (next !== undefined && next !== this.chosen) {
      this.#choose(next);
    }
    this.#mark();
    if (focused) {
      (byId(focused) ?? byId(`tab-${this.chosen}`))?.focus();
    }
  }

  /** The button of a tab, which is that before if there was one. @param {Tab} tab */
  #button({ id, title, count: rows }) {
    const button = byId(`tab-${id}`) ?? element('button', {
      type: 'button', role: 'tab', id: `tab-${id}`, 'aria-controls': 'panel', click: () => this.take(id), keydown: event => this.#turn(event),
    });
    const words = [title, ...(rows === undefined ? [] : [count(rows)])];
    if (button.textContent !== words.join('')) {
      button.replaceChildren(title, ...words.slice(1).map(text => element('span', { class: 'count' }, text)));
    }
    return button;
  }

  /** What a user does who takes a tab, if it is offered. @param {string} id */
  take(id) {
    if (byId(`tab-${id}`)) {
      this.#choose(id);
      this.#taken(id);
    }
  }

  #choose(id) {
    this.chosen = id;
    this.#mark();
    this.#panel.setAttribute('aria-labelledby', `tab-${id}`);
    this.#show(id);
  }

  /** Only the chosen tab is reached by the key Tab, the others by the arrow keys from there. */
  #mark() {
    for (const button of this.#list.children) {
      const isChosen = button.id === `tab-${this.chosen}`;
      button.setAttribute('aria-selected', String(isChosen));
      button.tabIndex = isChosen ? 0 : -1;
    }
  }

  /** @param {KeyboardEvent} event */
  #turn(event) {
    const buttons = [...this.#list.children];
    const at = buttons.indexOf(event.currentTarget);
    const next = { ArrowRight: at + 1, ArrowLeft: at - 1, Home: 0, End: -1 }[event.key];
    if (next === undefined) {
      return;
    }
    event.preventDefault();
    const button = buttons.at(next % buttons.length);
    button.click();
    button.focus();
  }
}
