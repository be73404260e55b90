// The map: images that were dropped, in one address space.

import { explain, hex, placeText } from '../../bindings/js/fault.mjs';
import { baseOf, spread } from './bases.mjs';
import { count, element, some } from './dom.mjs';
import { Helper } from './helper.mjs';
import { shownName } from './names.mjs';
import { neededBy } from './needed.mjs';
import { mapFiles } from './reading.mjs';
import { Rows } from './rows.mjs';
import { spacePicture } from './space_picture.mjs';

// of more images only the chosen one and what it needs are mapped at first, or if none is chosen so many
const MOST_AT_FIRST = 16;

/** @typedef {{ session: import('./session.mjs').Session, isIn: HTMLInputElement, base: HTMLInputElement, row: HTMLElement }} Choice an image that may be mapped */

/** The view of the map, for the images of the page. */
export class MapView {
  #helper = null;
  /** @type {Choice[]} */
  #choices;
  /** those that are mapped @type {Choice[]} */
  #mapped = [];
  #told = null;
  /** the bases, and what the slots held, before an image was moved */
  #bases = new Map();
  #values = new Map();
  #known = element('input', { type: 'checkbox', id: 'known', checked: true, change: () => this.map() });
  #output = element('div');
  #alert = element('div', { role: 'alert', class: 'refusal' });
  #tell;

  /**
   * @param {import('./session.mjs').Session[]} images
   * @param {import('./session.mjs').Session} chosen
   * @param {(words: string) => void} tell
   */
  constructor(images, chosen, tell) {
    this.#tell = tell;
    const bases = spread(images.map(({ line }) => line.headers));
    const isMany = images.length > MOST_AT_FIRST;
    const first = isMany && images.includes(chosen) ? neededBy(chosen, images) : new Set(images.slice(0, MOST_AT_FIRST));
    this.#choices = images.map((session, index) => this.#choice(session, bases[index], index, first.has(session)));
    const head = element('tr', {}, ...['Image', 'Base'].map(word => element('th', { scope: 'col' }, word)));
    this.node = element('div', {},
      element('p', { class: 'hint' }, 'Each image is laid out at its base, its fields are relocated, and its imports are bound. A base must be a multiple of 0x10000. To see who gives what to whom, also open the DLLs that these files import from.'),
      ...(isMany ? [element('p', { class: 'hint' }, `Of the ${count(images.length)} images that are open ${count(first.size)} are mapped at first; tick others to add them.`)] : []),
      element('div', { class: 'map-list' }, element('table', { class: 'map-images', 'aria-label': 'Images and their bases' }, element('thead', {}, head), element('tbody', {}, ...this.#choices.map(({ row }) => row)))),
      element('div', { class: 'tools' },
        element('label', {}, this.#known, ' Modules may be missing: what is imported from them stays unbound'),
        element('button', { type: 'button', click: () => this.map() }, 'Map again')),
      this.#alert, this.#output);
  }

  /** @returns {Choice} */
  #choice(session, base, index, checked) {
    const name = shownName(session.name);
    const isIn = element('input', { type: 'checkbox', checked, change: () => this.map() });
    const input = element('input', { id: `base-${index}`, value: hex(base), size: 18, spellcheck: 'false', autocomplete: 'off', 'aria-label': `Base of ${name}`, change: () => this.#move(choice) });
    const row = element('tr', {}, element('td', {}, element('label', {}, isIn, ` ${name}`)), element('td', {}, input));
    const choice = { session, isIn, base: input, row };
    return choice;
  }

  /** Maps the chosen images at the bases that are written. */
  async map() {
    this.#helper?.stop();
    this.#helper = Helper.take();
    this.#bases = new Map();
    this.#values = new Map();
    this.#mapped = this.#choices.filter(({ isIn }) => isIn.checked);
    this.#told = null;
    await this.#show(() => {
      const entries = this.#mapped.map(({ session: { blob, name }, base }) => ({ blob, name, base: baseOf(base.value) }));
      return mapFiles(this.#helper, entries, { known: this.#known.checked });
    });
  }

  stop() {
    this.#helper?.stop();
    this.#helper = null;
  }

  async #move(choice) {
    const index = this.#mapped.indexOf(choice);
    if (!this.#told || index < 0) {
      await this.map();
      return;
    }
    const before = this.#told;
    await this.#show(async () => {
      const told = await this.#helper.call('move', [index, baseOf(choice.base.value)]);
      this.#bases = new Map([[index, before.images[index].base]]);
      this.#values = new Map(before.bindings.map(row => [`${row.image} ${row.slot}`, row.value]));
      return told;
    });
  }

  async #show(call) {
    const helper = this.#helper;
    this.#alert.replaceChildren();
    this.#choices.forEach(({ base }) => base.removeAttribute('aria-invalid'));
    try {
      if (!this.#mapped.length) {
        this.#output.replaceChildren();
        return;
      }
      this.#tell('The images are mapped ..');
      const told = await call();
      if (helper !== this.#helper) {
        return;
      }
      this.#told = told;
    } catch (error) {
      if (helper === this.#helper) {
        this.#refuse(error);
      }
      return;
    }
    this.#draw();
  }

  #draw() {
    const { images, bindings, unbound } = this.#told;
    const changed = bindings.filter(row => this.#isChanged(row)).length;
    this.#tell(`${some(images.length, 'image')} mapped: ${some(bindings.length, 'import')} bound, ${count(unbound.length)} not.${this.#bases.size ? ` The move changed ${some(changed, 'slot')}.` : ''}`);
    this.#mapped.forEach(({ row, base }, index) => {
      row.classList.toggle('moved', this.#bases.has(index));
      // one that was refused before is there no more, but what is being written stays
      if (base !== document.activeElement) {
        base.value = hex(images[index].base);
      }
    });
    this.#output.replaceChildren(spacePicture(images, this.#bases), ...this.#tables());
  }

  #isChanged({ image, slot, value }) {
    const before = this.#values.get(`${image} ${slot}`);
    return before !== undefined && before !== value;
  }

  /** Says why the set may not stand so; what is seen stays as it was. */
  #refuse(error) {
    const { fault } = error;
    this.#tell('The images cannot be mapped so.');
    if (!fault) {
      this.#alert.replaceChildren(element('p', {}, error.message));
      return;
    }
    const choice = this.#mapped[fault.image];
    choice?.base.setAttribute('aria-invalid', 'true');
    // the worker knows no words
    const { subject, rule, explained } = explain(fault.number) ?? fault;
    this.#alert.replaceChildren(
      element('p', {}, `Refused by fault ${fault.number}: ${subject} ${placeText(fault.place)}: ${rule}.`),
      ...(choice ? [element('p', {}, `The image: ${shownName(choice.session.name)}`)] : []),
      ...(explained ? [element('p', {}, explained)] : []));
  }

  #tables() {
    const { images, bindings, unbound } = this.#told;
    const nameOf = index => images[index]?.name ?? String(index);
    const bound = bindings.map(row => ({
      image: nameOf(row.image), slot: row.slot, exporter: nameOf(row.exporter), rva: row.rva, value: row.value,
      ...(this.#isChanged(row) ? { before: this.#values.get(`${row.image} ${row.slot}`) } : {}),
    }));
    const missing = unbound.map(({ image, slot, module, name, ordinal }) => ({ image: nameOf(image), slot, module, import: name ?? `#${ordinal}` }));
    const table = (label, about, rows, changed) => (rows.length ? [element('h3', {}, label), element('p', { class: 'hint' }, about), new Rows(rows, { label, tell: this.#tell, changed }).node] : []);
    return [
      ...table('Bound imports', 'Each slot of an image, who exports what it holds and at which RVA, and the address in it. If a move changed it, the row is marked, and has the address before.', bound, row => row.before !== undefined),
      ...table('Imports that are bound to nothing', 'Their modules are not among these images.', missing),
    ];
  }
}
