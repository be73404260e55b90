// Several images in one address space.

import { Engine, wide } from './engine.mjs';
import { Fault } from './fault.mjs';
import { guess } from './file.mjs';

const encoder = new TextEncoder();
// a byte order mark is a part of a name
const decoder = new TextDecoder('utf-8', { ignoreBOM: true });
const STATUS_REFUSED = 1;
const MOST_READ = 2 ** 32 - 1;
// the lines of a report
const IMAGE = /^image (\d+) "([^"]*)" base (0x[0-9a-f]+) size (0x[0-9a-f]+)$/;
const BIND = /^bind (\d+) (0x[0-9a-f]+) to (\d+) (0x[0-9a-f]+) value (0x[0-9a-f]+)$/;
const WINDOW = /^(0x[0-9a-f]{16})((?: [0-9a-f]{2})+)$/;
const UNBOUND = /^unbound (\d+) (0x[0-9a-f]+) "([^"]*)" (?:"([^"]*)"|#(\d+))$/;

/**
 * @typedef {{ name: string, bytes: Uint8Array, base: number | bigint | string }} Entry
 * @typedef {{ name: string, base: bigint, size: number }} Placed
 * @typedef {{ image: number, slot: number, exporter: number, rva: number, value: bigint }} Binding
 * @typedef {{ image: number, slot: number, module: string, name?: string, ordinal?: number }} Unbound
 */

/** What a quoted string of a line stands for, in which `\x22` is the byte 22. @param {string} quoted */
function unquoted(quoted) {
  const bytes = quoted.replace(/\\x([0-9a-f]{2})/g, (_, digits) => String.fromCharCode(parseInt(digits, 16)));
  return decoder.decode(Uint8Array.from(bytes, character => character.charCodeAt(0)));
}

/** What the lines of a report say. @param {string} report */
export function readReport(report) {
  const told = { images: [], bindings: [], unbound: [], bytes: [] };
  for (const line of report.split('\n')) {
    let found;
    if ((found = BIND.exec(line))) {
      const [, image, slot, exporter, rva, value] = found;
      told.bindings.push({ image: Number(image), slot: Number(slot), exporter: Number(exporter), rva: Number(rva), value: BigInt(value) });
    } else if ((found = IMAGE.exec(line))) {
      told.images.push({ name: unquoted(found[2]), base: BigInt(found[3]), size: Number(found[4]) });
    } else if ((found = UNBOUND.exec(line))) {
      const [, image, slot, module, name, ordinal] = found;
      const key = ordinal === undefined ? { name: unquoted(name) } : { ordinal: Number(ordinal) };
      told.unbound.push({ image: Number(image), slot: Number(slot), module: unquoted(module), ...key });
    } else if ((found = WINDOW.exec(line))) {
      for (const byte of found[2].trim().split(' ')) {
        told.bytes.push(parseInt(byte, 16));
      }
    }
  }
  return told;
}

/** Images that are mapped together, each at its base, with their imports bound. */
export class Space {
  #engine;
  #entries;
  #known;
  #told;

  /**
   * @param {WebAssembly.Module} module
   * @param {Entry[]} entries
   * @param {{ known?: boolean }} [options] with `known`, an import from a module that is not among the entries is no fault
   */
  constructor(module, entries, { known = false } = {}) {
    this.#engine = new Engine(module);
    this.#known = known;
    this.#entries = entries.map(({ name, bytes, base }) => ({
      name: this.#engine.hold(encoder.encode(name)),
      file: this.#engine.hold(bytes),
      base: wide(base),
    }));
    this.#told = this.#map(this.#entries);
  }

  /** The images with their bases and sizes. @returns {Placed[]} */
  get images() {
    return this.#told.images;
  }

  /** What each slot is bound to, by image and then in the order of its import table. @returns {Binding[]} */
  get bindings() {
    return this.#told.bindings;
  }

  /** The imports that are bound to nothing, which only `known` allows. @returns {Unbound[]} */
  get unbound() {
    return this.#told.unbound;
  }

  /**
   * Bytes as they stand in the address space. Those that are not all in one image are thrown as a `Fault`.
   * @param {number | bigint | string} address
   * @param {number} count
   */
  read(address, count) {
    if (!Number.isInteger(count) || count < 0 || count > MOST_READ) {
      throw new RangeError(`${count} bytes cannot be read`);
    }
    return Uint8Array.from(readReport(this.#report(this.#entries, { address: wide(address), count })).bytes);
  }

  /**
   * Gives an image another base. If the set may not stand so, this is thrown as a `Fault` and nothing is moved.
   * @param {number} image
   * @param {number | bigint | string} base
   */
  move(image, base) {
    if (!this.#entries[image]) {
      throw new RangeError(`there is no image ${image}`);
    }
    const entries = this.#entries.with(image, { ...this.#entries[image], base: wide(base) });
    this.#told = this.#map(entries);
    this.#entries = entries;
  }

  #map(entries) {
    return readReport(this.#report(entries, { unbound: this.#known }));
  }

  #report(entries, { unbound = false, address = 0n, count = 0 }) {
    return this.#engine.freeing(() => {
      const set = this.#engine.holdEntries(entries);
      const length = entries.reduce((sum, { file }) => sum + file.length, 0);
      const room = { text: guess(length).text, heap: guess(length).heap + 4 * length };
      const { status, text } = this.#engine.call('map', [set, this.#known, unbound, address, count], room);
      if (status === STATUS_REFUSED) {
        throw Fault.ofLine(decoder.decode(text));
      }
      return decoder.decode(text);
    });
  }
}
