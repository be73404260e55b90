// The selected place: its bytes, and what stands there.

import { hex } from '../../bindings/js/fault.mjs';
import { byId, cut } from './dom.mjs';
import { Hex } from './hex.mjs';
import { shownName } from './names.mjs';
import { offsetOf, rvaOf } from './parts.mjs';

/** @typedef {{ rva?: number, offset?: number, size?: number, name?: string }} Target */

const MOST_NAME = 200;
const MOST_LETTERS = 10_000;
const RVAS = 2 ** 32;

/** A number that a user wrote in hexadecimal digits, or null. @param {string} text */
function numberOf(text) {
  const found = /^\s*(?:0x)?([0-9a-f]{1,16})\s*$/i.exec(text);
  return found && BigInt(`0x${found[1]}`);
}

/** The panel of the selected place. */
export class PlacePanel {
  #file = null;
  #asked = 0;
  /** what is told of the place before */
  #told = Promise.resolve();
  #hex;

  /** @param {(target: Target) => void} choose */
  constructor(choose) {
    this.#hex = new Hex(offset => choose({ offset }));
    byId('go').addEventListener('submit', event => {
      event.preventDefault();
      this.#go(choose);
    });
  }

  /** Goes to the place that a user wrote. */
  #go(choose) {
    const input = byId('go-place');
    const number = numberOf(input.value);
    const base = BigInt(this.#file?.line.headers?.image_base ?? 0);
    const as = byId('go-as').value;
    const place = Number(as === 'address' && number !== null ? number - base : number ?? -1);
    const isThere = place >= 0 && place < (as === 'offset' ? this.#file.length : RVAS);
    input.setAttribute('aria-invalid', String(!isThere));
    if (isThere) {
      choose(as === 'offset' ? { offset: place } : { rva: place });
    }
  }

  /**
   * Shows a place of a file: an RVA or an offset.
   * @param {import('./session.mjs').Session} file
   * @param {Target} target
   */
  async show(file, { rva, offset, size = 1, name = '' }) {
    const asked = ++this.#asked;
    this.#offer(file);
    const { parts } = file;
    const begin = offset ?? offsetOf(parts, rva);
    const where = rva ?? rvaOf(parts, offset);
    const words = [begin !== undefined && `file ${hex(begin)}`, where !== undefined && `RVA ${hex(where)}`].filter(Boolean);
    byId('place-title').textContent = [words.join(', '), shownName(name, MOST_NAME)].filter(Boolean).join(': ');
    byId('at').textContent = '';
    if (begin === undefined || begin >= file.length) {
      this.#hex.say(begin === undefined ? wordsOfMemory(file, rva) : 'The file ends before this place.');
    } else {
      this.#hex.show(file, { begin, end: begin + size }, { rvaOf: at => rvaOf(parts, at), fault: faultOffset(file) });
    }
    // of the places that a key goes over while one is asked for, only the last is asked for too
    await this.#told;
    if (asked !== this.#asked) {
      return;
    }
    this.#told = (rva === undefined ? file.at(offset, 'file') : file.at(rva, 'rva')).catch(error => error.message);
    const told = await this.#told;
    if (asked === this.#asked) {
      byId('at').textContent = cut(told.trimEnd(), MOST_LETTERS);
    }
  }

  /** Offers what a place may be given as, which for objects and archives is an offset alone. */
  #offer(file) {
    if (this.#file === file) {
      return;
    }
    this.#file = file;
    this.#told = Promise.resolve();
    const as = byId('go-as');
    for (const option of as.options) {
      option.hidden = option.disabled = option.value !== 'offset' && !file.isImage;
    }
    as.value = file.isImage ? 'rva' : 'offset';
    byId('go-place').value = '';
    byId('go-place').removeAttribute('aria-invalid');
  }
}

/** What there is at an RVA whose bytes the file does not hold. */
function wordsOfMemory({ isImage, line }, rva) {
  if (!isImage) {
    return 'This file is not laid out in memory.';
  }
  return rva < line.headers.size_of_image ? 'These bytes are not in the file: memory begins with zeros here.' : 'The image ends before this place.';
}

/** The offset in the file of what refuses it, if there is one. */
function faultOffset({ line: { fault }, parts }) {
  const { file, rva } = fault?.place ?? {};
  return file ?? (rva === undefined ? undefined : offsetOf(parts, rva));
}
