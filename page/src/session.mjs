// A file that was dropped: its worker, and what petool tells of it.

import { Helper } from './helper.mjs';
import { isObjectFormat, partsOf } from './parts.mjs';
import { bytesOf, load } from './reading.mjs';
import { tablesOf } from './tables.mjs';

// so many files are read at a time, and so many keep their bytes in memory: the others are read again when they are asked for
const READ_AT_ONCE = Math.min(navigator.hardwareConcurrency || 2, 4);
const MOST_HELD = 8;

const linesOf = text => text.trimEnd().split('\n').map(line => JSON.parse(line));

/** What waits until it may begin, in the order in which it came. */
class Queue {
  #free;
  #waiting = [];

  /** @param {number} most how much may run at a time */
  constructor(most) {
    this.#free = most;
  }

  /** @template T @param {() => Promise<T>} run */
  async run(run) {
    if (this.#free) {
      this.#free -= 1;
    } else {
      await new Promise(begin => this.#waiting.push(begin));
    }
    try {
      return await run();
    } finally {
      const next = this.#waiting.shift();
      if (next) {
        next();
      } else {
        this.#free += 1;
      }
    }
  }
}

const queue = new Queue(READ_AT_ONCE);
/** The sessions whose bytes are in memory: that which was used last is the last. @type {Set<Session>} */
const held = new Set();

/** A file of the page. */
export class Session {
  #helper = null;
  #loaded = null;
  /** how many calls have not ended */
  #calls = 0;
  #all = null;
  #tables = null;
  #line = {};

  /** @param {File} blob */
  constructor(blob) {
    this.blob = blob;
    // half of a pair of UTF-16 has no place in an address
    this.name = blob.name.toWellFormed?.() ?? blob.name;
    this.length = blob.size;
    this.read = 0;
    this.milliseconds = 0;
    this.memoryBytes = 0;
    /** @type {'waiting' | 'reading' | 'accepted' | 'refused' | 'failed' | 'closed'} */
    this.state = 'waiting';
    this.message = '';
    this.members = [];
    /** whether the line has the tables beyond the profile */
    this.hasAll = false;
    /** why it has not, if they were asked for */
    this.missing = '';
    this.parts = [];
    /** what was shown of it last @type {{ place: import('./place.mjs').Target | null, tab: string } | null} */
    this.left = null;
  }

  /** The line of the file, or the last one of an archive. */
  get line() {
    return this.#line;
  }

  set line(line) {
    this.#line = line;
    this.#tables = null;
  }

  /** The tables that the lines have. */
  get tables() {
    this.#tables ??= tablesOf(this.#line, this.members, isObjectFormat(this.#line.format));
    return this.#tables;
  }

  get isImage() {
    return this.line.headers?.size_of_image !== undefined;
  }

  /** Whether its headers are known, though the file is not read yet. */
  get isBegun() {
    return this.state === 'reading' && this.parts.length > 0;
  }

  /** Whether the file is not read yet. */
  get isPending() {
    return this.state === 'waiting' || this.state === 'reading';
  }

  /** Reads the file when others are done, and tells of its progress. @param {() => void} changed */
  async open(changed) {
    await queue.run(async () => {
      if (this.state === 'closed') {
        return;
      }
      this.state = 'reading';
      changed();
      const began = performance.now();
      await this.#read(changed);
      this.milliseconds = performance.now() - began;
    });
    changed();
  }

  async #read(changed) {
    try {
      const { text, memoryBytes } = await this.#ask('line', [], progress => this.#advance(progress, changed));
      this.memoryBytes = memoryBytes;
      const lines = linesOf(text);
      this.line = lines.pop();
      this.members = lines;
      this.parts = partsOf(this);
      this.state = this.line.accepted ? 'accepted' : 'refused';
    } catch (error) {
      if (this.state !== 'closed') {
        this.state = 'failed';
        this.message = error.message;
      }
    }
  }

  /** More of the file was read, or its headers. */
  #advance({ read, head }, changed) {
    this.read = read;
    if (head) {
      this.line = head;
      this.parts = partsOf(this);
    }
    changed();
  }

  /** Ends what is done for this file. */
  close() {
    this.state = 'closed';
    this.#release();
  }

  /** Adds what is beyond the profile to the line, which is asked for once. */
  addAll() {
    this.#all ??= this.#ask('all', [{ functions: true, symbols: true, digests: true }]).then(text => {
      this.line = linesOf(text).at(-1);
      this.hasAll = true;
      this.missing = '';
    });
    this.#all.catch(error => {
      this.#all = null;
      this.missing = error.message;
    });
    return this.#all;
  }

  /** Lets go of the long lists of an image, which `addAll` has again. */
  shorten() {
    if (this.isImage) {
      const { exports: _, fixups: __, ...line } = this.line;
      this.line = line;
    }
  }

  /** @param {number} place @param {'rva' | 'file'} as */
  at(place, as) {
    return this.#ask('at', [place, as]);
  }

  /** Bytes of the file, which are read without the worker. @param {number} begin @param {number} end */
  bytes(begin, end) {
    return bytesOf(this.blob, begin, end);
  }

  /** The readable page. @param {string[]} tables */
  page(tables) {
    return this.#ask('show', [{ tables }]);
  }

  /** What a call of the worker returns, which has the file's bytes first. */
  async #ask(call, words, onProgress = () => {}) {
    if (this.state === 'closed') {
      throw new Error('the file is closed');
    }
    this.#calls += 1;
    try {
      if (!this.#helper) {
        this.#load(onProgress);
      }
      this.#keep();
      await this.#loaded;
      return await this.#helper.call(call, words);
    } finally {
      this.#calls -= 1;
    }
  }

  /** Begins to read the bytes. A worker that cannot is let go, and the next call begins anew. */
  #load(onProgress) {
    const helper = Helper.take();
    this.#helper = helper;
    this.#loaded = load(helper, this.blob, onProgress);
    this.#loaded.catch(() => {
      if (this.#helper === helper) {
        this.#release();
      }
    });
  }

  /** Keeps the bytes in memory, and no more long those that were not used for the longest time. */
  #keep() {
    held.delete(this);
    held.add(this);
    for (const session of held) {
      if (held.size > MOST_HELD && !session.#calls) {
        session.#release();
      }
    }
  }

  #release() {
    held.delete(this);
    this.#helper?.stop();
    this.#helper = null;
  }
}
