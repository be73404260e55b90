// The addresses at which images may stand.

const GRANULE = 0x10000n;
const FIRST_BASE = 0x10000000n;

/** The ranges at which images stand, in the order of their bases: none meets another. */
class Taken {
  /** @type {{ base: bigint, end: bigint }[]} */
  #ranges = [];

  /** The index of the first range that ends after an address. @param {bigint} address */
  #after(address) {
    let [low, high] = [0, this.#ranges.length];
    while (low < high) {
      const middle = (low + high) >> 1;
      [low, high] = this.#ranges[middle].end > address ? [low, middle] : [middle + 1, high];
    }
    return low;
  }

  /** Whether so many bytes at a base meet no range. @param {bigint} base @param {bigint} size */
  isFree(base, size) {
    const next = this.#ranges[this.#after(base)];
    return !next || next.base >= base + size;
  }

  /** The first base from `base` on at which so many bytes meet no range. @param {bigint} base @param {bigint} size */
  freeFrom(base, size) {
    for (let index = this.#after(base); index < this.#ranges.length && this.#ranges[index].base < base + size; index += 1) {
      base = roundedUp(this.#ranges[index].end);
    }
    return base;
  }

  /** @param {bigint} base @param {bigint} size */
  add(base, size) {
    this.#ranges.splice(this.#after(base), 0, { base, end: base + size });
  }
}

/** @param {bigint} address */
const roundedUp = address => ((address + GRANULE - 1n) / GRANULE) * GRANULE;

/** Bases at which images do not overlap: for each its own if that is free, or else another. @param {object[]} headers */
export function spread(headers) {
  const taken = new Taken();
  // all that were moved stand before this
  let next = FIRST_BASE;
  return headers.map(({ image_base, size_of_image }) => {
    const [own, size] = [BigInt(image_base), BigInt(size_of_image)];
    const isFree = taken.isFree(own, size);
    const base = isFree ? own : taken.freeFrom(next, size);
    taken.add(base, size);
    if (!isFree) {
      next = roundedUp(base + size);
    }
    return base;
  });
}

/** The base that a user wrote, in hexadecimal digits. @param {string} text */
export function baseOf(text) {
  const digits = text.trim().replace(/^0x/i, '');
  if (!/^[0-9a-f]{1,16}$/i.test(digits)) {
    throw new Error(`'${text}' is no address: hexadecimal digits are needed, as in 0x180000000.`);
  }
  return BigInt(`0x${digits}`);
}
