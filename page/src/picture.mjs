// The picture: the file and the image in memory as bars, joined by bands.

import { hex } from '../../bindings/js/fault.mjs';
import { byId, count, cut, drawn, element, pressable } from './dom.mjs';
import { shownName } from './names.mjs';
import { fewer, partAt, placeIn, spansOf } from './spans.mjs';

const HEIGHT = 560;
const TOP = 28;
const BOTTOM = HEIGHT - 6;
// beside the bars stand the places of the parts
const LABELS = 68;
const TABLE = 14;
// a part is at least so high that its name has room, if there are not too many, and a table so high that it is seen
const LEAST = 15;
const LEAST_TABLE = 4;
const LETTER = 6.6;
const MOST_NAME = 200;
const DRAGGED = 6;
const ALIGNED = 16;
const ALL = { begin: 0, end: 1 };

const LEGEND = {
  code: 'can run', read: 'read only', write: 'can be written', headers: 'headers', relocations: 'relocations', member: 'a member', table: 'a table that the headers name',
  behind: 'in the file only', zero: 'zeros, not in the file', missing: 'past the end of the file',
};

/** @typedef {import('./parts.mjs').Part} Part */
/** @typedef {import('./spans.mjs').Side} Side */
/** @typedef {import('./spans.mjs').Span} Span */

/** The picture of one file. */
export class Picture {
  #svg = byId('bars');
  #all = byId('zoom-out');
  #one = byId('zoom-in');
  #choose;
  /** @type {Part[]} */
  #parts = [];
  #length = 0;
  /** @type {{ file: Map<Part, Span>, image: Map<Part, Span> }} */
  #bars = { file: new Map(), image: new Map() };
  #fault = null;
  /** @type {{ part: Part, side: Side } | null} */
  #chosen = null;
  /** @type {Span} what of the bars is seen */
  #window = ALL;
  #width = 0;

  /** @param {(part: Part, side: Side, at: number) => void} choose */
  constructor(choose) {
    this.#choose = choose;
    this.#all.addEventListener('click', () => this.#look(ALL));
    this.#one.addEventListener('click', () => this.#look(this.#spanOfChosen()));
    this.#svg.setAttribute('height', String(HEIGHT));
    this.#listenForDrags();
    new ResizeObserver(() => this.#resize()).observe(this.#svg);
  }

  /**
   * Shows the parts of a file, with a mark at a fault's place.
   * @param {{ parts: Part[], length: number }} file
   * @param {import('../../bindings/js/fault.mjs').Place | null} fault
   */
  show({ parts, length }, fault) {
    const tables = parts.filter(({ isTable }) => isTable);
    this.#parts = [...fewer(parts.filter(({ isTable }) => !isTable)), ...tables];
    this.#length = length;
    const least = LEAST / (BOTTOM - TOP);
    this.#bars = { file: spansOf(this.#parts, 'file', least), image: spansOf(this.#parts, 'image', least) };
    this.#fault = fault;
    this.#chosen = null;
    this.#writeLegend();
    this.#width = this.#measured();
    this.#look(ALL);
  }

  /** Names the colours that are there. */
  #writeLegend() {
    const kinds = new Set(this.#parts.map(({ kind }) => kind));
    if (this.#parts.some(part => part.image && !part.isTable && this.#filled(part) < 1)) {
      kinds.add('zero');
    }
    if (this.#parts.some(part => part.file && !part.isTable && this.#present(part) < 1)) {
      kinds.add('missing');
    }
    byId('legend').replaceChildren(...Object.entries(LEGEND).filter(([kind]) => kinds.has(kind)).map(([kind, words]) =>
      element('li', {}, drawn('svg', { viewBox: '0 0 10 10', 'aria-hidden': 'true' }, drawn('rect', { width: 10, height: 10, class: kind })), words)));
  }

  /** Marks what has a place: a table if it begins there, or else a part. @param {{ rva?: number, offset?: number }} place */
  select({ rva, offset }) {
    const side = rva === undefined ? 'file' : 'image';
    const at = rva ?? offset;
    const table = this.#parts.find(part => part.isTable && part[side]?.at === at);
    const last = partAt(this.#bars[side], side, at);
    const part = table ?? (last && at - last[side].at < Math.max(last[side].size, 1) ? last : null);
    this.#chosen = part ? { part, side } : null;
    this.#markChosen();
  }

  #markChosen() {
    this.#one.disabled = !this.#chosen;
    const chosen = this.#chosen && String(this.#parts.indexOf(this.#chosen.part));
    const faces = this.#faces();
    for (const face of faces) {
      face.setAttribute('aria-pressed', String(face.dataset.part === chosen));
      face.setAttribute('tabindex', '-1');
    }
    const first = faces.find(({ dataset: { part, side } }) => part === chosen && side === this.#chosen.side) ?? faces[0];
    first?.setAttribute('tabindex', '0');
  }

  /** What can be selected, in the order of the file, and then of the image. */
  #faces() {
    const orderOf = ({ dataset: { part, side } }) => [side === 'file' ? 0 : 1, this.#parts[part][side].at, this.#parts[part].isTable ? 1 : 0];
    return [...this.#svg.querySelectorAll('.part')].sort((a, b) => {
      const [one, other] = [orderOf(a), orderOf(b)];
      const differing = one.findIndex((each, index) => each !== other[index]);
      return differing < 0 ? 0 : one[differing] - other[differing];
    });
  }

  /** The arrow keys go up and down a bar, and from one bar to the other. @param {KeyboardEvent} event */
  #turn(event) {
    const faces = this.#faces();
    const here = event.currentTarget;
    const at = faces.indexOf(here);
    const other = faces.find(face => face !== here && face.dataset.part === here.dataset.part);
    const next = { ArrowDown: faces[at + 1], ArrowUp: faces[at - 1], Home: faces[0], End: faces.at(-1), ArrowLeft: other, ArrowRight: other }[event.key];
    if (!next) {
      return;
    }
    event.preventDefault();
    here.setAttribute('tabindex', '-1');
    next.setAttribute('tabindex', '0');
    next.focus();
  }

  /** Where the chosen part is, with a little of its neighbours. */
  #spanOfChosen() {
    const { part, side } = this.#chosen;
    const { begin, end } = this.#spanOf(part, side);
    const more = Math.max((end - begin) / 4, 1e-5);
    return { begin: Math.max(0, begin - more), end: Math.min(1, end + more) };
  }

  /** Where a part or a table is in a bar. */
  #spanOf(part, side) {
    const bar = this.#bars[side];
    const { at, size } = part[side];
    return bar.get(part) ?? { begin: placeIn(bar, side, at), end: placeIn(bar, side, at + size) };
  }

  #look(window) {
    this.#window = window;
    this.#draw();
    this.#markChosen();
    if (window === ALL && document.activeElement === this.#all) {
      this.#svg.querySelector('.part[tabindex="0"]')?.focus();
    }
    this.#all.disabled = window === ALL;
  }

  #measured() {
    return Math.round(this.#svg.getBoundingClientRect().width);
  }

  #resize() {
    const width = this.#measured();
    if (width && width !== this.#width) {
      this.#width = width;
      this.#look(this.#window);
    }
  }

  /** Where a place of a bar is drawn. */
  #y(place) {
    const { begin, end } = this.#window;
    return TOP + ((place - begin) / (end - begin)) * (BOTTOM - TOP);
  }

  /** How wide a bar is: what the labels and the bands leave. */
  get #bar() {
    const sides = this.#bars.image.size ? 2 : 1;
    return (this.#width - sides * LABELS) / (sides === 2 ? 2.5 : 1.4);
  }

  /** Where a bar begins. @param {Side} side */
  #x(side) {
    return side === 'file' ? LABELS : this.#width - LABELS - this.#bar;
  }

  #draw() {
    const { file, image } = this.#bars;
    const clip = drawn('clipPath', { id: 'inside' }, drawn('rect', { x: 0, y: TOP, width: this.#width, height: BOTTOM - TOP }));
    const inside = drawn('g', { 'clip-path': 'url(#inside)' });
    const tables = this.#parts.filter(({ isTable }) => isTable);
    inside.append(
      ...this.#parts.filter(part => file.has(part) && image.has(part)).map(part => this.#band(part)),
      ...[...file.keys()].flatMap(part => this.#part(part, 'file')),
      ...[...image.keys()].flatMap(part => this.#part(part, 'image')),
      ...tables.flatMap(part => ['file', 'image'].filter(side => part[side] && this.#bars[side].size).map(side => this.#table(part, side))),
      ...this.#faultLine());
    this.#svg.replaceChildren(clip, ...this.#headings(), inside);
  }

  #headings() {
    const { file, image } = this.#bars;
    const heading = (side, text) => drawn('text', { x: this.#x(side) + this.#bar / 2, y: 18, 'text-anchor': 'middle', class: 'heading' }, text);
    return [...(file.size ? [heading('file', 'file')] : []), ...(image.size ? [heading('image', 'memory')] : [])];
  }

  /** How much of a part of the image the file holds, from 0 to 1. */
  #filled({ file, image }) {
    return file ? Math.min(1, file.size / image.size) : 0;
  }

  /** From where on a part of the file is past the file's end, from 0 to 1. */
  #present({ file: { at, size } }) {
    return size ? Math.min(1, Math.max(0, (this.#length - at) / size)) : 1;
  }

  #band(part) {
    const [file, image] = [this.#bars.file.get(part), this.#bars.image.get(part)];
    const end = image.begin + (image.end - image.begin) * this.#filled(part);
    const left = this.#x('file') + this.#bar;
    const corners = [[left, file.begin], [this.#x('image'), image.begin], [this.#x('image'), end], [left, file.end]];
    const points = corners.map(([x, place]) => `${x},${this.#y(place)}`).join(' ');
    return drawn('polygon', { points, class: `band ${part.kind}` });
  }

  /** What a part or a table is called by assistive software, and what stands there while the pointer is over it. */
  #words(part, side) {
    const { at, size } = part[side];
    return `${side === 'file' ? 'in the file' : 'in memory'} at ${hex(at)}, ${count(size)} bytes: ${shownName(part.name, MOST_NAME)}`;
  }

  /** The face of a part, which is clicked. */
  #face(part, side, place) {
    const words = this.#words(part, side);
    const choose = event => this.#choose(part, side, this.#placeUnder(event, part, side));
    const acts = pressable(choose);
    return drawn('rect', {
      ...place, 'data-part': this.#parts.indexOf(part), 'data-side': side, tabindex: -1, role: 'button', 'aria-label': words, 'aria-pressed': false, click: acts.click,
      keydown: event => {
        acts.keydown(event);
        this.#turn(event);
      },
    }, drawn('title', {}, words));
  }

  #part(part, side) {
    const { begin, end } = this.#spanOf(part, side);
    const [x, y, width] = [this.#x(side), this.#y(begin), this.#bar];
    const height = this.#y(end) - y;
    const shapes = [];
    if (side === 'image') {
      shapes.push(drawn('rect', { x, y, width, height, class: 'zero' }), drawn('rect', { x, y, width, height: height * this.#filled(part), class: part.kind }));
    } else {
      shapes.push(drawn('rect', { x, y, width, height: height * this.#present(part), class: part.kind }));
    }
    shapes.push(this.#face(part, side, { x, y, width, height, class: 'part', 'fill-opacity': 0 }));
    if (side === 'file' && this.#present(part) < 1) {
      const top = y + height * this.#present(part);
      shapes.push(drawn('rect', { x: x + 1, y: top, width: width - 2, height: y + height - top, class: 'missing' }, drawn('title', {}, 'past the end of the file')));
    }
    return [...shapes, ...this.#labels(part, side, x, y, height)];
  }

  #labels(part, side, x, y, height) {
    // a part that begins above the window has its name at the window's top
    const top = Math.max(y, TOP);
    if (y + height - top < LEAST - 3) {
      return [];
    }
    const room = Math.max(3, Math.floor((this.#bar - TABLE - 8) / LETTER));
    const name = part.name.length > room ? cut(part.name, room - 2) : part.name;
    const baseline = top + 12;
    const beside = side === 'file' ? { x: x - 5, 'text-anchor': 'end' } : { x: x + this.#bar + 5, 'text-anchor': 'start' };
    return [
      drawn('text', { x: x + (side === 'image' ? TABLE + 5 : 5), y: baseline, class: side === 'file' && !this.#present(part) ? 'dim' : 'on-part' }, name),
      ...(y >= TOP ? [drawn('text', { ...beside, y: baseline, class: 'dim' }, hex(part[side].at))] : []),
    ];
  }

  /** A table that lies in a part: at the side of the bar that the bands touch. */
  #table(part, side) {
    const { begin, end } = this.#spanOf(part, side);
    const y = this.#y(begin);
    const x = side === 'file' ? this.#x(side) + this.#bar - TABLE : this.#x(side);
    return this.#face(part, side, { x, y, width: TABLE, height: Math.max(LEAST_TABLE, this.#y(end) - y), class: 'part table' });
  }

  /** The place that was clicked: that under the pointer in a picture that is enlarged, or else the beginning. */
  #placeUnder(event, part, side) {
    const { at, size } = part[side];
    // a key has no pointer, and counts no clicks
    if (this.#window === ALL || part.isTable || !event.detail) {
      return at;
    }
    const { begin, end } = this.#spanOf(part, side);
    const fraction = (this.#placeOf(this.#yOf(event)) - begin) / (end - begin);
    return at + Math.floor((Math.min(Math.max(fraction, 0), 0.999999) * size) / ALIGNED) * ALIGNED;
  }

  /** A line where the fault is. */
  #faultLine() {
    const { rva, file: offset } = this.#fault ?? {};
    const [side, at] = rva === undefined ? ['file', offset] : ['image', rva];
    if (at === undefined || !this.#bars[side].size) {
      return [];
    }
    const y = Math.min(Math.max(this.#y(placeIn(this.#bars[side], side, at)), TOP + 2), BOTTOM - 2);
    const x = this.#x(side);
    // the word stands between the bars, where nothing else does
    const words = side === 'file' ? { x: x + this.#bar + 10 } : { x: x - 10, 'text-anchor': 'end' };
    return [
      drawn('line', { x1: x - 6, x2: x + this.#bar + 6, y1: y, y2: y, class: 'fault' }, drawn('title', {}, `the fault, at ${hex(at)}`)),
      drawn('text', { ...words, y: Math.max(y + 4, TOP + 12), class: 'fault-words' }, 'fault'),
    ];
  }

  /** How far down the picture the pointer is. */
  #yOf(event) {
    return Math.min(Math.max(event.clientY - this.#svg.getBoundingClientRect().top, TOP), BOTTOM);
  }

  /** The place of a bar that is drawn there. */
  #placeOf(y) {
    const { begin, end } = this.#window;
    return begin + ((y - TOP) / (BOTTOM - TOP)) * (end - begin);
  }

  /** Drags over the picture enlarge what they go over. */
  #listenForDrags() {
    let began = null;
    let rubber = null;
    let dragged = false;
    const forget = () => {
      began = null;
      rubber?.remove();
      rubber = null;
    };
    this.#svg.addEventListener('pointerdown', event => {
      began = event.button ? null : this.#yOf(event);
      dragged = false;
    });
    this.#svg.addEventListener('pointermove', event => {
      const y = this.#yOf(event);
      // the button may have been let go outside
      if (!event.buttons) {
        forget();
      }
      if (began === null || (!rubber && Math.abs(y - began) < DRAGGED)) {
        return;
      }
      this.#svg.setPointerCapture(event.pointerId);
      rubber ??= this.#svg.appendChild(drawn('rect', { x: 0, width: this.#width, class: 'rubber' }));
      rubber.setAttribute('y', String(Math.min(began, y)));
      rubber.setAttribute('height', String(Math.abs(y - began)));
    });
    this.#svg.addEventListener('pointerup', event => {
      const ends = [began, this.#yOf(event)].map(y => this.#placeOf(y)).sort((a, b) => a - b);
      dragged = rubber !== null;
      forget();
      if (dragged) {
        this.#look({ begin: ends[0], end: Math.max(ends[1], ends[0] + 1e-6) });
      }
    });
    this.#svg.addEventListener('pointercancel', forget);
    // the click that ends a drag selects nothing
    this.#svg.addEventListener('click', event => {
      if (dragged) {
        dragged = false;
        event.stopPropagation();
      }
    }, true);
  }
}
