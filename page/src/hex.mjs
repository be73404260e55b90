// Bytes of a file in lines of sixteen, with their offsets in the file and their RVAs.

import { byId, element } from './dom.mjs';

export const LINE = 16;
const LINES = 14;
const PAGE = LINE * LINES;

/** @typedef {{ begin: number, end: number }} Run */

/** A printable letter for a byte, or a dot. @param {number} byte */
const letter = byte => (byte > 31 && byte < 127 ? String.fromCharCode(byte) : '.');

const digits = (number, length) => number.toString(16).padStart(length, '0');

/** The bytes that are seen. */
export class Hex {
  #box = byId('hex');
  /** @type {{ length: number, bytes: (begin: number, end: number) => Promise<Uint8Array> } | null} */
  #file = null;
  #rvaOf = () => undefined;
  #begin = 0;
  /** the byte that is selected, which begins a run, and that at which a fault is */
  #at = 0;
  /** @type {Run} */
  #run = { begin: 0, end: 0 };
  #fault;
  #asked = 0;

  /** @param {(offset: number) => void} choose */
  constructor(choose) {
    byId('hex-head').textContent = `file     RVA       ${Array.from({ length: LINE }, (_, index) => digits(index, 2)).join(' ')}`;
    byId('earlier').addEventListener('click', () => this.#turn(-PAGE));
    byId('later').addEventListener('click', () => this.#turn(PAGE));
    this.#box.addEventListener('click', ({ target }) => target.dataset.at && choose(Number(target.dataset.at)));
    this.#box.addEventListener('keydown', event => this.#key(event, choose));
  }

  /**
   * Shows the bytes of a file around a run, whose first is marked.
   * @param {{ length: number, bytes: (begin: number, end: number) => Promise<Uint8Array> }} file
   * @param {Run} run
   * @param {{ rvaOf: (offset: number) => number | undefined, fault?: number }} about the offsets of the file
   */
  async show(file, run, { rvaOf, fault }) {
    const isSeen = file === this.#file && run.begin >= this.#begin && run.begin < this.#begin + PAGE;
    this.#file = file;
    this.#run = run;
    this.#at = run.begin;
    this.#rvaOf = rvaOf;
    this.#fault = fault;
    if (!isSeen) {
      this.#begin = Math.floor(run.begin / LINE) * LINE;
    }
    await this.#draw();
  }

  /** Shows words in place of bytes. @param {string} words */
  say(words) {
    this.#asked += 1;
    this.#file = null;
    this.#box.textContent = words;
    this.#enable();
  }

  async #turn(bytes) {
    const last = Math.floor(Math.max(this.#file.length - 1, 0) / LINE) * LINE;
    this.#begin = Math.max(0, Math.min(this.#begin + bytes, last));
    await this.#draw();
  }

  #enable() {
    byId('earlier').disabled = !this.#file || this.#begin === 0;
    byId('later').disabled = !this.#file || this.#begin + PAGE >= this.#file.length;
  }

  async #draw() {
    const asked = ++this.#asked;
    this.#enable();
    let lines;
    try {
      const bytes = await this.#file.bytes(this.#begin, this.#begin + PAGE);
      lines = Array.from({ length: Math.ceil(bytes.length / LINE) }, (_, index) => this.#line(this.#begin + index * LINE, bytes.subarray(index * LINE, (index + 1) * LINE)));
    } catch (error) {
      lines = [[error.message]];
    }
    if (asked === this.#asked) {
      this.#box.replaceChildren(...lines.flat());
    }
  }

  /** The texts of a line. */
  #line(offset, bytes) {
    const rva = this.#rvaOf(offset);
    const head = element('span', { class: 'at' }, `${digits(offset, 8)} ${rva === undefined ? '        ' : digits(rva, 8)}  `);
    const pairs = [...bytes].flatMap((byte, index) => [this.#pair(offset + index, byte), index + 1 < bytes.length ? ' ' : '']);
    return [head, ...pairs, `${'   '.repeat(LINE - bytes.length)}  ${[...bytes].map(letter).join('')}\n`];
  }

  #pair(at, byte) {
    const { begin, end } = this.#run;
    const isFault = at === this.#fault;
    const words = [isFault ? 'fault' : '', at >= begin && at < end ? 'run' : ''].filter(Boolean).join(' ');
    return element(at === this.#at ? 'mark' : 'span', { class: words || undefined, 'data-at': at, title: isFault ? 'the fault is here' : undefined }, digits(byte, 2));
  }

  /** The arrow keys select other bytes. @param {KeyboardEvent} event */
  #key(event, choose) {
    const step = { ArrowLeft: -1, ArrowRight: 1, ArrowUp: -LINE, ArrowDown: LINE, PageUp: -PAGE, PageDown: PAGE }[event.key];
    if (!step || !this.#file || event.ctrlKey || event.altKey || event.metaKey) {
      return;
    }
    event.preventDefault();
    choose(Math.max(0, Math.min(this.#at + step, this.#file.length - 1)));
  }
}
