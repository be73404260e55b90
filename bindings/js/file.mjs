// Files that were opened: images, objects and archives.

import { Engine, MOST_FILE_BYTES, MOST_TEXT_BYTES, OutOfMemory, wide } from './engine.mjs';
import { Fault } from './fault.mjs';

const encoder = new TextEncoder();
// a byte order mark is a part of the text
const decoder = new TextDecoder('utf-8', { ignoreBOM: true });
const STATUS_REFUSED = 1;
const AS = { rva: 0, address: 1, file: 2 };
// the tables of a page in the order of the bits by which `show` takes them
const TABLES = ['exports', 'imports', 'relocations', 'symbols', 'debug', 'functions', 'unwind', 'tls', 'load', 'resources', 'trust'];
const WIDTH = 100;
const MB = 2 ** 20;

/**
 * How many bytes a call over a file may take at first: it is called again if these are too few.
 * @param {number} length of the file
 */
export const guess = length => ({ text: MB + length / 2, heap: 4 * MB + length / 8 });

/**
 * @typedef {object} Options
 * @property {string} [name] what the file is called in its lines
 * @property {boolean} [refused] whether a refused file is returned, with its fault in `fault`, and not thrown as a `Fault`
 * @property {number} [mostText] how many bytes a text of it may have: a longer one is `OutOfMemory`
 */

/** An image, an object or an archive, with what `petool json` tells of it. */
export class OpenedFile {
  #engine;
  #held;
  #name;
  #mostText;
  #lines;

  /**
   * @param {WebAssembly.Module} module
   * @param {Uint8Array} bytes
   * @param {Options} options
   */
  static open(module, bytes, { name = '', refused = false, mostText }) {
    const file = OpenedFile.reserve(module, bytes.length, { name, mostText });
    file.bytes().set(bytes);
    file.read();
    if (file.fault && !refused) {
      throw file.fault;
    }
    return file;
  }

  /**
   * A file whose bytes are not there yet: `bytes()` takes them, and `read()` then reads it.
   * @param {WebAssembly.Module} module
   * @param {number} length
   * @param {Options} options
   */
  static reserve(module, length, options) {
    if (length > MOST_FILE_BYTES) {
      throw new OutOfMemory(`the file has ${Math.ceil(length / MB)} MB, and files of at most ${MOST_FILE_BYTES / MB} MB are read here`);
    }
    return new OpenedFile(module, length, options);
  }

  /** Use `open` or `reserve`. */
  constructor(module, length, { name = '', mostText = MOST_TEXT_BYTES }) {
    this.#engine = new Engine(module);
    this.#held = this.#engine.reserve(length);
    this.#name = this.#engine.hold(encoder.encode(name));
    this.#mostText = Math.min(mostText, MOST_TEXT_BYTES);
    this.#lines = [];
    this.name = name;
  }

  /** The line of JSON of the file, or of each member of an archive and then of the archive, as text. */
  json({ all = false, functions = false, symbols = false, digests = false } = {}) {
    return this.#text('json', [this.#name, this.#held, all, functions, symbols, digests]);
  }

  /** Reads the file again from its bytes. */
  read() {
    this.#lines = this.json().trimEnd().split('\n').map(line => JSON.parse(line));
    return this;
  }

  /** What the line of the file says, or the last line of an archive, which is about the whole. */
  get line() {
    return this.#lines.at(-1);
  }

  /** The lines of an archive's members; of another file none. */
  get members() {
    return this.#lines.slice(0, -1);
  }

  /** The first fault of a refused file. */
  get fault() {
    return this.line.fault ? new Fault(this.line.fault) : null;
  }

  /** `PE32`, `PE32+`, `COFF`, `BIGOBJ`, `archive` or `thin archive`. */
  get format() {
    return this.line.format;
  }

  get headers() {
    return this.line.headers;
  }

  get directories() {
    return this.line.directories;
  }

  get sections() {
    return this.line.sections;
  }

  get exports() {
    return this.line.exports;
  }

  get imports() {
    return this.line.imports;
  }

  get fixups() {
    return this.line.fixups;
  }

  get symbols() {
    return this.line.symbols;
  }

  /** How many bytes the file has. */
  get length() {
    return this.#held.length;
  }

  /** How many bytes of memory the file and what was told of it take. */
  get memoryBytes() {
    return this.#engine.memoryBytes;
  }

  /**
   * The bytes of the file from `begin` up to `end`, which are those of the engine until the next call.
   * @param {number} [begin]
   * @param {number} [end]
   */
  bytes(begin = 0, end = this.length) {
    const from = Math.min(Math.max(begin, 0), this.length);
    const to = Math.min(Math.max(end, from), this.length);
    return this.#engine.view({ at: this.#held.at + from, length: to - from });
  }

  /** The line with the tables beyond the profile and what the file says of itself, as `petool json --all` tells it. */
  all({ functions = false, symbols = false, digests = true } = {}) {
    return JSON.parse(this.json({ all: true, functions, symbols, digests }).trimEnd().split('\n').at(-1));
  }

  /**
   * What is at a place, as `petool at` tells it: an RVA, or as `as` says.
   * @param {number | bigint | string} place
   * @param {{ as?: 'rva' | 'address' | 'file' }} [options]
   */
  at(place, { as = 'rva' } = {}) {
    if (!Object.hasOwn(AS, as)) {
      throw new RangeError(`a place is no '${as}'`);
    }
    return this.#text('at', [this.#held, AS[as], wide(place)]);
  }

  /** What `petool check` prints: `accepted PE32 sections 1` and the like. A refused file is thrown as a `Fault`. */
  check() {
    return this.#accepted('check');
  }

  /** What `petool dump` prints. A refused file is thrown as a `Fault`. */
  dump() {
    return this.#accepted('dump');
  }

  /** What `petool object` prints. A refused file is thrown as a `Fault`. */
  object() {
    return this.#accepted('object');
  }

  /** What `petool archive` prints. A refused file is thrown as a `Fault`. */
  archive() {
    return this.#accepted('archive');
  }

  /** What check, dump, object or archive prints, also of a refused file: the line of its first fault. */
  lines(command) {
    return this.#text(command, [this.#held]);
  }

  /**
   * The readable page of `petool show`, with the rows of these tables.
   * @param {{ tables?: string[], width?: number }} [options]
   */
  show({ tables = [], width = WIDTH } = {}) {
    const bits = tables.reduce((sum, table) => {
      const bit = TABLES.indexOf(table);
      if (bit < 0) {
        throw new RangeError(`a page has no table '${table}'`);
      }
      return sum | (1 << bit);
    }, 0);
    return this.#text('show', [this.#name, this.#held, bits, BigInt(width)]);
  }

  /**
   * The file for another base, whose CheckSum is 0. What cannot be written is thrown as a `Fault`.
   * @param {number | bigint | string} base
   */
  rebase(base) {
    return this.#engine.freeing(() => {
      const room = this.#engine.reserve(this.length);
      const heap = 4 * MB + this.length * 2;
      const { status, text } = this.#engine.call('rebase', [this.#held, wide(base), room], { text: 256, heap });
      if (status === STATUS_REFUSED) {
        throw Fault.ofLine(decoder.decode(text));
      }
      return this.#engine.view(room).slice();
    });
  }

  /** What a call writes, and its status. */
  #call(command, words) {
    return this.#engine.call(command, words, { ...guess(this.length), most: this.#mostText });
  }

  #text(command, words) {
    return decoder.decode(this.#call(command, words).text);
  }

  #accepted(command) {
    const { status, text } = this.#call(command, [this.#held]);
    if (status === STATUS_REFUSED) {
      throw Fault.ofLine(decoder.decode(text));
    }
    return decoder.decode(text);
  }
}
