// Tables of rows: sorted, filtered and copied. Only the rows in sight are drawn.

import { asCsv, asJson, cellText, columnsOf, isNumber, sorted } from './cells.mjs';
import { copy, count, cut, element, some } from './dom.mjs';
import { RowWindow } from './window.mjs';

const PAGE_ROWS = 18;
// a column is as wide as the longest of so many of its texts, up to so many letters
const MEASURED_ROWS = 1000;
const MOST_LETTERS = 70;
const ARROW_LETTERS = 2;
// how wide a letter and the space at both sides are, beside a digit
const LETTER = 0.87;
const PADDING = 3;
// a browser lays out no longer texts without a pause; what is copied has them whole
const MOST_DRAWN = 300;
const MOST_TITLE = 2000;

/** A table. */
export class Rows {
  #rows;
  #columns;
  /** all rows in their order, and those of them that are shown */
  #sorted;
  #shown;
  #order = null;
  #filter = '';
  #choose;
  #tell;
  #changed;
  #shows;
  #chosen = null;
  #table;
  #window;
  #counted = element('span', { class: 'hint', role: 'status' });

  /**
   * @param {object[]} rows
   * @param {object} options
   * @param {string} options.label
   * @param {(row: object) => void} [options.choose] what the choice of a row does
   * @param {(words: string) => void} [options.tell]
   * @param {(row: object) => boolean} [options.changed] whether a row is marked
   * @param {Record<string, (value: unknown) => string>} [options.shows] how the cells of some columns are written
   * @param {string[]} [options.hides] columns that are not shown
   */
  constructor(rows, { label, choose, tell = () => {}, changed = () => false, shows = {}, hides = [] }) {
    this.#rows = rows;
    this.#sorted = rows;
    this.#shown = rows;
    this.#columns = columnsOf(rows).filter(key => !hides.includes(key));
    this.#choose = choose;
    this.#tell = tell;
    this.#changed = changed;
    this.#shows = shows;
    const body = element('tbody', choose ? { click: event => this.#click(event), keydown: event => this.#key(event) } : {});
    this.#table = element('table', { role: choose && 'grid', 'aria-label': label }, element('thead'), body);
    this.#setWidths();
    const scroller = element('div', { class: 'rows', tabindex: 0, role: 'group', 'aria-label': `Rows of ${label}` }, this.#table);
    this.node = element('div', {}, this.#tools(label), scroller);
    this.#head();
    this.#window = new RowWindow(scroller, body, this.#columns.length, (node, index) => this.#fill(node, index));
    this.#arrange();
  }

  #tools(label) {
    const search = element('input', { type: 'search', placeholder: 'Filter', 'aria-label': `Filter ${label}`, input: () => this.#filterBy(search.value) });
    const button = (name, make) => element('button', { type: 'button', click: () => copy(make(), `${some(this.#shown.length, 'row')} as ${name}`, this.#tell) }, `Copy as ${name}`);
    return element('div', { class: 'tools' }, search, this.#counted,
      button('CSV', () => asCsv(this.#shown, this.#columns, (key, row) => this.#cell(key, row))), button('JSON', () => asJson(this.#shown)));
  }

  /** What a cell of a row shows. */
  #cell(key, row) {
    return this.#shows[key]?.(row[key]) ?? cellText(key, row[key]);
  }

  /** Gives the columns their widths, which stay as they are while the table is scrolled. */
  #setWidths() {
    const step = Math.max(1, Math.floor(this.#rows.length / MEASURED_ROWS));
    const measured = this.#rows.filter((_, index) => index % step === 0);
    const widths = this.#columns.map(key => {
      const letters = measured.reduce((most, row) => Math.max(most, this.#cell(key, row).length), 0);
      return Math.max(key.length + ARROW_LETTERS, Math.min(letters, MOST_LETTERS)) * LETTER + PADDING;
    });
    // a table has fixed columns only if it has a width itself
    this.#table.style.width = `max(100%, ${widths.reduce((sum, width) => sum + width, 0)}ch)`;
    this.#table.prepend(element('colgroup', {}, ...widths.map(width => {
      const column = element('col');
      column.style.width = `${width}ch`;
      return column;
    })));
  }

  #isNumeric(key) {
    return isNumber(this.#rows[0]?.[key]) && !this.#shows[key];
  }

  #head() {
    const cells = this.#columns.map(key => {
      const way = this.#order?.key === key ? this.#order.way : 0;
      const words = { 0: 'none', 1: 'ascending', [-1]: 'descending' }[way];
      const arrow = { 0: '', 1: ' ↑', [-1]: ' ↓' }[way];
      return element('th', { scope: 'col', class: this.#isNumeric(key) ? 'number' : undefined, 'aria-sort': words }, element('button', { type: 'button', click: () => this.#sortBy(key) }, key.replaceAll('_', ' ') + arrow));
    });
    this.#table.tHead.replaceChildren(element('tr', { 'aria-rowindex': 1 }, ...cells));
  }

  #sortBy(key) {
    this.#order = { key, way: this.#order?.key === key ? -this.#order.way : 1 };
    this.#sorted = sorted(this.#rows, this.#order);
    this.#head();
    this.#table.tHead.rows[0].cells[this.#columns.indexOf(key)].firstChild.focus();
    this.#arrange();
  }

  #filterBy(text) {
    this.#filter = text.toLowerCase();
    this.#arrange();
  }

  /** What says whether a cell's text has the filter in it: many rows may share a long text, in which it is looked for once. */
  #finder() {
    const known = new Map();
    const has = text => text.toLowerCase().includes(this.#filter);
    return text => {
      if (text.length <= MOST_TITLE) {
        return has(text);
      }
      if (!known.has(text)) {
        known.set(text, has(text));
      }
      return known.get(text);
    };
  }

  #filtered() {
    const isFound = this.#finder();
    return this.#sorted.filter(row => this.#columns.some(key => isFound(this.#cell(key, row))));
  }

  #arrange() {
    this.#shown = this.#filter ? this.#filtered() : this.#sorted;
    this.#table.setAttribute('aria-rowcount', String(this.#shown.length + 1));
    this.#counted.textContent = this.#filter ? `${count(this.#shown.length)} of ${some(this.#rows.length, 'row')}` : some(this.#rows.length, 'row');
    this.#window.start(this.#shown.length);
  }

  /** Shows a row in an element. */
  #fill(node, index) {
    const row = this.#shown[index];
    this.#columns.forEach((key, at) => {
      const cell = node.cells[at];
      const whole = this.#cell(key, row);
      const text = cut(whole, MOST_DRAWN);
      if (cell.firstChild.data !== text) {
        cell.firstChild.data = text;
        cell.title = whole.length > MOST_LETTERS ? whole.slice(0, MOST_TITLE) : '';
      }
      const kind = isNumber(row[key]) && !this.#shows[key] ? 'number' : '';
      if (cell.className !== kind) {
        cell.className = kind;
      }
    });
    node.setAttribute('aria-rowindex', String(index + 2));
    const isChosen = row === this.#chosen;
    node.className = [isChosen && 'chosen', this.#changed(row) && 'changed'].filter(Boolean).join(' ');
    if (this.#choose) {
      node.tabIndex = isChosen || index === this.#window.first ? 0 : -1;
      node.setAttribute('aria-selected', String(isChosen));
    }
  }

  #select(index) {
    this.#chosen = this.#shown[index];
    this.#window.refresh();
    this.#window.focus(index);
    this.#choose(this.#chosen);
  }

  /** @param {MouseEvent} event */
  #click({ target }) {
    const index = this.#window.indexOf(target.closest('tr'));
    if (index >= 0) {
      this.#select(index);
    }
  }

  /** The arrow keys go from row to row, Enter and the space bar select one. @param {KeyboardEvent} event */
  #key(event) {
    const index = this.#window.indexOf(event.target.closest('tr'));
    const steps = { ArrowDown: 1, ArrowUp: -1, PageDown: PAGE_ROWS, PageUp: -PAGE_ROWS, Home: -index, End: this.#shown.length };
    if (index < 0) {
      return;
    }
    if (event.key === 'Enter' || event.key === ' ') {
      this.#select(index);
    } else if (event.key in steps) {
      this.#window.focus(Math.min(Math.max(index + steps[event.key], 0), this.#shown.length - 1));
    } else {
      return;
    }
    event.preventDefault();
  }
}
