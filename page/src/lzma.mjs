// Decompresses LZMA, in the format with a header of 13 bytes and a mark at the end, as Python's `lzma` writes it: browsers have no
// decoder of their own for it, and a module takes a third less than as gzip, which sees only 32 KB at a time.

const HEADER = 13;
// a probability has 11 bits, and moves by a part of 32 to what it was asked for
const PROBABILITY_BITS = 11;
const EVEN = 1024;
const MOVE = 5;
// a range below this is widened by a byte
const LEAST_RANGE = 2 ** 24;
const STATES = 12;
const POSITIONS = 16;
const FIRST_MATCH_STATE = 7;
const LEAST_LENGTH = 2;
const LITERAL_PROBABILITIES = 0x300;
// distances of the slots from 4 to 13 have a tree for each slot, and later ones four bits of one tree after plain bits
const FIRST_TREE_SLOT = 4;
const FIRST_PLAIN_SLOT = 14;
const ALIGN_BITS = 4;
const SLOT_BITS = 6;
const END = 0xffffffff;

/** @param {number} count */
const evens = count => new Uint16Array(count).fill(EVEN);

/** Bits, each of which has taken the less of the data the likelier it was. */
class Bits {
  #bytes;
  #at;
  #range = END;
  #code = 0;

  /** @param {Uint8Array} bytes @param {number} at where they begin, with a byte that is 0 */
  constructor(bytes, at) {
    this.#bytes = bytes;
    this.#at = at + 1;
    for (let count = 0; count < 4; count += 1) {
      this.#code = ((this.#code << 8) | this.#next()) >>> 0;
    }
  }

  #next() {
    if (this.#at === this.#bytes.length) {
      throw new Error('these bytes are not LZMA: they end too early');
    }
    return this.#bytes[this.#at++];
  }

  #widen() {
    if (this.#range < LEAST_RANGE) {
      this.#range = (this.#range << 8) >>> 0;
      this.#code = ((this.#code << 8) | this.#next()) >>> 0;
    }
  }

  /** The next bit, by the probability with this index, which learns of it. @param {Uint16Array} probabilities @param {number} index */
  bit(probabilities, index) {
    const probability = probabilities[index];
    const bound = (this.#range >>> PROBABILITY_BITS) * probability;
    const bit = this.#code < bound ? 0 : 1;
    if (bit) {
      probabilities[index] -= probability >> MOVE;
      this.#code -= bound;
      this.#range -= bound;
    } else {
      probabilities[index] += ((1 << PROBABILITY_BITS) - probability) >> MOVE;
      this.#range = bound;
    }
    this.#widen();
    return bit;
  }

  /** A number of so many bits, each as likely to be 0 as 1. @param {number} count */
  plain(count) {
    let number = 0;
    for (; count; count -= 1) {
      this.#range >>>= 1;
      const bit = this.#code < this.#range ? 0 : 1;
      this.#code -= bit * this.#range;
      number = number * 2 + bit;
      this.#widen();
    }
    return number;
  }

  /** A number of so many bits, the highest first, by a tree that begins at an index. */
  tree(probabilities, base, count) {
    let node = 1;
    for (let level = 0; level < count; level += 1) {
      node = node * 2 + this.bit(probabilities, base + node);
    }
    return node - (1 << count);
  }

  /** The same, the lowest bit first. */
  reverseTree(probabilities, base, count) {
    let [node, number] = [1, 0];
    for (let level = 0; level < count; level += 1) {
      const bit = this.bit(probabilities, base + node);
      node = node * 2 + bit;
      number += bit << level;
    }
    return number;
  }
}

/** How long matches are. */
class Lengths {
  #choices = evens(2);
  #low = evens(POSITIONS << 3);
  #middle = evens(POSITIONS << 3);
  #high = evens(256);

  /** @param {Bits} bits @param {number} position the low bits of how much there is */
  next(bits, position) {
    if (!bits.bit(this.#choices, 0)) {
      return LEAST_LENGTH + bits.tree(this.#low, position << 3, 3);
    }
    if (!bits.bit(this.#choices, 1)) {
      return LEAST_LENGTH + 8 + bits.tree(this.#middle, position << 3, 3);
    }
    return LEAST_LENGTH + 16 + bits.tree(this.#high, 0, 8);
  }
}

/** How far back matches begin. */
class Distances {
  #slots = evens(4 << SLOT_BITS);
  #trees = evens(128);
  #align = evens(1 << ALIGN_BITS);

  /** @param {Bits} bits @param {number} length of the match */
  next(bits, length) {
    const slot = bits.tree(this.#slots, Math.min(length - LEAST_LENGTH, 3) << SLOT_BITS, SLOT_BITS);
    if (slot < FIRST_TREE_SLOT) {
      return slot;
    }
    const count = (slot >> 1) - 1;
    const first = (2 + (slot & 1)) * 2 ** count;
    if (slot < FIRST_PLAIN_SLOT) {
      return first + bits.reverseTree(this.#trees, first - slot, count);
    }
    return first + bits.plain(count - ALIGN_BITS) * (1 << ALIGN_BITS) + bits.reverseTree(this.#align, 0, ALIGN_BITS);
  }
}

/** What was decompressed, in room that is doubled when it is full. */
class Output {
  #room = new Uint8Array(2 ** 16);
  length = 0;

  /** The byte so many before the end; there is a 0 before the first. @param {number} distance */
  back(distance) {
    return distance > this.length ? 0 : this.#room[this.length - distance];
  }

  /** @param {number} byte */
  add(byte) {
    if (this.length === this.#room.length) {
      const larger = new Uint8Array(2 * this.length);
      larger.set(this.#room);
      this.#room = larger;
    }
    this.#room[this.length++] = byte;
  }

  /** Adds so many bytes that begin so far back; they may reach into what is added. */
  repeat(distance, length) {
    if (distance > this.length) {
      throw new Error('these bytes are not LZMA: a match begins before the first byte');
    }
    for (; length; length -= 1) {
      this.add(this.back(distance));
    }
  }

  bytes() {
    return this.#room.subarray(0, this.length);
  }
}

/**
 * The bytes that were compressed.
 * @param {Uint8Array} packed
 */
export function unpackLzma(packed) {
  const [literalContext, literalPosition, positionBits] = [packed[0] % 9, Math.floor(packed[0] / 9) % 5, Math.floor(packed[0] / 45)];
  const bits = new Bits(packed, HEADER);
  const output = new Output();
  const literals = evens(LITERAL_PROBABILITIES << (literalContext + literalPosition));
  const isMatch = evens(STATES * POSITIONS);
  const [isRepeat, isOther, isThird, isFourth] = [evens(STATES), evens(STATES), evens(STATES), evens(STATES)];
  const isLong = evens(STATES * POSITIONS);
  const [lengths, repeatLengths, distances] = [new Lengths(), new Lengths(), new Distances()];
  // the last four distances, the latest first, each less by one
  const last = [0, 0, 0, 0];
  let state = 0;

  function literal() {
    const context = ((output.length & ((1 << literalPosition) - 1)) << literalContext) + (output.back(1) >> (8 - literalContext));
    const base = LITERAL_PROBABILITIES * context;
    let node = 1;
    if (state >= FIRST_MATCH_STATE) {
      // the byte that the last match would have gone on with is likely not to come
      for (let matched = output.back(last[0] + 1); node < 0x100; ) {
        matched <<= 1;
        const expected = matched & 0x100;
        const bit = bits.bit(literals, base + 0x100 + expected + node);
        node = node * 2 + bit;
        if (expected >> 8 !== bit) {
          break;
        }
      }
    }
    while (node < 0x100) {
      node = node * 2 + bits.bit(literals, base + node);
    }
    output.add(node & 0xff);
    state = state < 4 ? 0 : state - (state < 10 ? 3 : 6);
  }

  /** Takes the distance of an earlier match to the front, and says whether the match is of one byte. @param {number} cell */
  function isShortRepeat(cell) {
    if (!bits.bit(isOther, state)) {
      return !bits.bit(isLong, cell);
    }
    const index = bits.bit(isThird, state) ? 2 + bits.bit(isFourth, state) : 1;
    last.unshift(...last.splice(index, 1));
    return false;
  }

  for (;;) {
    const position = output.length & ((1 << positionBits) - 1);
    const cell = state * POSITIONS + position;
    if (!bits.bit(isMatch, cell)) {
      literal();
    } else if (!bits.bit(isRepeat, state)) {
      const length = lengths.next(bits, position);
      const distance = distances.next(bits, length);
      if (distance === END) {
        return output.bytes();
      }
      last.unshift(distance);
      last.pop();
      state = state < FIRST_MATCH_STATE ? 7 : 10;
      output.repeat(last[0] + 1, length);
    } else if (isShortRepeat(cell)) {
      state = state < FIRST_MATCH_STATE ? 9 : 11;
      output.repeat(last[0] + 1, 1);
    } else {
      const length = repeatLengths.next(bits, position);
      state = state < FIRST_MATCH_STATE ? 8 : 11;
      output.repeat(last[0] + 1, length);
    }
  }
}
