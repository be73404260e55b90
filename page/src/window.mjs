// The rows of a long table that are in sight: their elements are used again for other rows while it is scrolled.

import { element } from './dom.mjs';

// as page.css has it, in sizes of the page's letters
const ROW_LETTERS = 1.75;
const SPARE_ROWS = 4;
// Firefox draws no element that is much higher
const MOST_HEIGHT = 8_000_000;
const UNSEEN_HEIGHT = 600;

/** A row of the table that shows nothing, and is as high as the rows that are not drawn. */
function spacer(columns) {
  const cell = element('td', { colspan: columns || 1 });
  return { cell, row: element('tr', { 'aria-hidden': 'true', class: 'space' }, cell) };
}

/** What of the rows is drawn. */
export class RowWindow {
  #scroller;
  #body;
  #columns;
  #fill;
  #above;
  #below;
  #count = 0;
  #rowHeight = 0;
  #first = 0;
  #last = 0;
  /** the elements of the rows that are drawn @type {HTMLTableRowElement[]} */
  #drawn = [];
  #spares = [];

  /**
   * @param {HTMLElement} scroller
   * @param {HTMLTableSectionElement} body
   * @param {number} columns
   * @param {(row: HTMLTableRowElement, index: number) => void} fill shows a row in an element, each cell of which has one text
   */
  constructor(scroller, body, columns, fill) {
    this.#scroller = scroller;
    this.#body = body;
    this.#columns = columns;
    this.#fill = fill;
    this.#above = spacer(columns);
    this.#below = spacer(columns);
    body.append(this.#above.row, this.#below.row);
    scroller.addEventListener('scroll', () => this.#draw(false), { passive: true });
    new ResizeObserver(() => this.#draw(false)).observe(scroller);
  }

  /** Shows so many rows from the first on. @param {number} count */
  start(count) {
    this.#count = count;
    this.#rowHeight = ROW_LETTERS * parseFloat(getComputedStyle(document.documentElement).fontSize);
    this.#scroller.scrollTop = 0;
    this.#draw(true);
  }

  /** Shows the same rows anew. */
  refresh() {
    this.#draw(true);
  }

  /** The index of the first row that is drawn. */
  get first() {
    return this.#first;
  }

  /** The index of the row that an element shows. @param {HTMLElement} row */
  indexOf(row) {
    const at = this.#drawn.indexOf(row);
    return at < 0 ? -1 : this.#first + at;
  }

  /** Scrolls to a row, and focuses it. @param {number} index */
  focus(index) {
    const { all, made, seen } = this.#heights();
    const scale = made === all ? 1 : (made - seen) / (all - seen);
    const { scrollTop } = this.#scroller;
    const [low, high] = [(index + 2) * this.#rowHeight - seen, index * this.#rowHeight].map(top => top * scale);
    if (scrollTop < low || scrollTop > high) {
      this.#scroller.scrollTop = scrollTop < low ? low : high;
      this.#draw(false);
    }
    this.#drawn[index - this.#first]?.focus({ preventScroll: true });
  }

  /** How high all rows are, and how high they are made: browsers bound the height of an element. */
  #heights() {
    const all = this.#count * this.#rowHeight;
    return { all, made: Math.min(all, MOST_HEIGHT), seen: this.#scroller.clientHeight || UNSEEN_HEIGHT };
  }

  #draw(isAnew) {
    const { all, made, seen } = this.#heights();
    const { scrollTop } = this.#scroller;
    const top = made === all ? scrollTop : (scrollTop / (made - seen)) * (all - seen);
    const first = Math.max(0, Math.min(Math.floor(top / this.#rowHeight) - SPARE_ROWS, this.#count - 1));
    const last = Math.min(this.#count, first + Math.ceil(seen / this.#rowHeight) + 2 * SPARE_ROWS);
    const isMoved = first !== this.#first || last !== this.#last;
    if (!isMoved && !isAnew && made === all) {
      return;
    }
    const above = Math.max(0, Math.round(scrollTop - top + first * this.#rowHeight));
    this.#space(this.#above, above);
    this.#space(this.#below, Math.max(0, made - above - (last - first) * this.#rowHeight));
    if (isMoved || isAnew) {
      this.#fillFrom(first, last);
    }
  }

  #space({ row, cell }, height) {
    cell.setAttribute('height', String(height));
    row.hidden = !height;
  }

  /** Shows these rows; the focus stays with its row, as long as that is in sight. */
  #fillFrom(first, last) {
    const focused = this.#drawn.indexOf(document.activeElement);
    const kept = this.#first + focused;
    this.#first = first;
    this.#last = last;
    this.#resize(last - first);
    this.#drawn.forEach((row, at) => this.#fill(row, first + at));
    if (focused >= 0) {
      (this.#drawn[kept - first] ?? this.#scroller).focus({ preventScroll: true });
    }
  }

  /** Makes so many elements of rows be there. */
  #resize(length) {
    while (this.#drawn.length > length) {
      const row = this.#drawn.pop();
      row.remove();
      this.#spares.push(row);
    }
    while (this.#drawn.length < length) {
      const row = this.#spares.pop() ?? element('tr', {}, ...Array.from({ length: this.#columns }, () => element('td', {}, '')));
      this.#drawn.push(row);
      this.#below.row.before(row);
    }
  }
}
