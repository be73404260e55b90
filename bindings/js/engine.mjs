// The calls of petool.wasm. Each is lent memory for what it allocates and room for its text, and is called again if either was too
// little. The module keeps nothing between calls, so the same memory is lent to the next.

/** The most bytes that the memory of one instance may have. */
export const MOST_BYTES = 2 ** 30;

/** The most bytes that a file may have: what a call needs beside it has to fit too. */
export const MOST_FILE_BYTES = 384 * 2 ** 20;

/** The most bytes that a text may have: engines of JavaScript bound the length of a string. */
export const MOST_TEXT_BYTES = 511 * 2 ** 20;

const PAGE_BYTES = 65536;
const LEAST_BYTES = 1024;
// room of so many bytes is only doubled
const LARGE_BYTES = 64 * 2 ** 20;
const STATUS_ROOM = 3;
const STATUS_MEMORY = 4;
const STATUS_LENGTH = 5;
// the records of C: memory is an address and a length, an entry of a set a name, a file and a base
const MEMORY_BYTES = 16;
const ENTRY_BYTES = 40;
// a module that is valid only where memories may have 64-bit addresses
const MEMORY64 = Uint8Array.of(0, 97, 115, 109, 1, 0, 0, 0, 5, 3, 1, 4, 1);

/** Whether this machine runs modules whose memory has 64-bit addresses. */
export function hasMemory64() {
  return WebAssembly.validate(MEMORY64);
}

/** There is not as much memory as a call needs, or as it may take. */
export class OutOfMemory extends Error {
  /** @param {string} message */
  constructor(message) {
    super(message);
    this.name = 'OutOfMemory';
  }
}

/** @param {number} number */
const aligned = number => Math.ceil(number / 16) * 16;

/**
 * A number of 64 bits without a sign: one that JavaScript writes without loss, a BigInt, or a text such as `0x180000000`.
 * @param {number | bigint | string} number
 */
export function wide(number) {
  const found = BigInt(number);
  if ((typeof number === 'number' && !Number.isSafeInteger(number)) || found !== BigInt.asUintN(64, found)) {
    throw new RangeError(`${number} is no number of 64 bits: above 2^53 a BigInt or a text is needed`);
  }
  return found;
}

/**
 * @typedef {{ at: number, length: number }} Held bytes in an engine's memory
 * @typedef {{ status: number, text: Uint8Array }} Told a status, and a text that the next call overwrites
 * @typedef {Held | number | bigint | boolean} Word
 */

/** An instance of the module, with the files that its calls are about. */
export class Engine {
  #exports;
  /** where the bytes that are held end */
  #top;
  #mostBytes;

  /**
   * @param {WebAssembly.Module} module
   * @param {number} [mostBytes]
   */
  constructor(module, mostBytes = MOST_BYTES) {
    this.#exports = new WebAssembly.Instance(module).exports;
    this.#top = aligned(Number(this.#exports.__heap_base.value));
    this.#mostBytes = mostBytes;
  }

  /** How many bytes the memory has. */
  get memoryBytes() {
    return this.#exports.memory.buffer.byteLength;
  }

  /**
   * Room for so many bytes, for as long as the engine lives.
   * @param {number} length
   * @returns {Held}
   */
  reserve(length) {
    const at = this.#top;
    this.#grow(at + aligned(length));
    this.#top = at + aligned(length);
    return { at, length };
  }

  /**
   * A copy of these bytes, for as long as the engine lives.
   * @param {Uint8Array} bytes
   */
  hold(bytes) {
    const held = this.reserve(bytes.length);
    this.view(held).set(bytes);
    return held;
  }

  /**
   * The bytes in memory, up to the next call.
   * @param {Held} held
   */
  view({ at, length }) {
    return new Uint8Array(this.#exports.memory.buffer, at, length);
  }

  /**
   * A call that writes a text.
   * @param {string} name of the call, such as `check`
   * @param {Word[]} words what the call is given before the room for its text
   * @param {{ text: number, heap: number, most?: number }} guess how many bytes its text and what it allocates may take, and how many
   * the text may at most
   * @returns {Told}
   */
  call(name, words, { text: room, heap, most = MOST_TEXT_BYTES }) {
    room = Math.min(Math.ceil(room), most);
    for (;;) {
      const told = this.#callOnce(name, words, room, heap);
      if (told.status === STATUS_MEMORY) {
        if (this.memoryBytes >= this.#mostBytes) {
          throw this.#wantsMore();
        }
        heap = Math.max(told.heap, LEAST_BYTES) * 2;
      } else if (told.status === STATUS_ROOM) {
        if (room === most) {
          throw new OutOfMemory(`what there is to tell of this takes over ${most.toLocaleString('en')} bytes of text`);
        }
        room = Math.min(Math.max(room, LEAST_BYTES) * (room < LARGE_BYTES ? 4 : 2), most);
      } else {
        return { status: told.status, text: this.view({ at: told.at, length: told.length }) };
      }
    }
  }

  /**
   * Runs what reserves or holds bytes, and frees these again.
   * @template T
   * @param {() => T} run
   * @returns {T}
   */
  freeing(run) {
    const top = this.#top;
    try {
      return run();
    } finally {
      this.#top = top;
    }
  }

  /**
   * The records of a set of images, for as long as the engine lives.
   * @param {{ name: Held, file: Held, base: bigint }[]} entries
   * @returns {Held} whose length is the number of records
   */
  holdEntries(entries) {
    const { at } = this.reserve(ENTRY_BYTES * entries.length);
    const records = new DataView(this.#exports.memory.buffer, at);
    entries.forEach(({ name, file, base }, index) => {
      const values = [BigInt(name.at), BigInt(name.length), BigInt(file.at), BigInt(file.length), base];
      values.forEach((value, field) => records.setBigUint64(index * ENTRY_BYTES + field * 8, value, true));
    });
    return { at, length: entries.length };
  }

  /** Calls once, with at least so much memory for what is allocated. */
  #callOnce(name, words, room, heap) {
    const record = this.#top;
    const length = record + MEMORY_BYTES;
    const at = length + 16;
    const start = aligned(at + room);
    this.#grow(start + MEMORY_BYTES);
    this.#grow(Math.min(start + heap, this.#mostBytes));
    const { buffer } = this.#exports.memory;
    const size = Math.floor((buffer.byteLength - start) / 16) * 16;
    const cells = new DataView(buffer);
    cells.setBigUint64(record, BigInt(start), true);
    cells.setBigUint64(record + 8, BigInt(size), true);
    const given = [...words, { at, length: room }].flatMap(parameters);
    const status = this.#exports[`petool_page_${name}`](BigInt(record), ...given, BigInt(length));
    if (status === STATUS_LENGTH) {
      throw new RangeError('the room for a file has another length');
    }
    return { status, at, length: Number(cells.getBigUint64(length, true)), heap: size };
  }

  #wantsMore() {
    return new OutOfMemory(`this takes more than the ${this.#mostBytes / 2 ** 20} MB of memory that it may`);
  }

  /** Makes the memory reach to this address. */
  #grow(end) {
    const { memory } = this.#exports;
    const pages = Math.ceil((end - memory.buffer.byteLength) / PAGE_BYTES);
    if (pages <= 0) {
      return;
    }
    if (end > this.#mostBytes) {
      throw this.#wantsMore();
    }
    try {
      memory.grow(hasBigPages(memory) ? BigInt(pages) : pages);
    } catch (error) {
      if (error instanceof RangeError) {
        throw new OutOfMemory('there is not enough memory');
      }
      throw error;
    }
  }
}

/** Whether a memory counts its pages in BigInts, as one with 64-bit addresses does. */
function hasBigPages(memory) {
  try {
    memory.grow(0);
    return false;
  } catch (error) {
    return error instanceof TypeError;
  }
}

/** What the module is given for a word: of bytes an address and a length. */
function parameters(word) {
  if (typeof word === 'object') {
    return [BigInt(word.at), BigInt(word.length)];
  }
  return typeof word === 'boolean' ? [Number(word)] : [word];
}
