// Faults: the first rule of the format that a file breaks, and where.

/**
 * @typedef {{ file: number } | { rva: number } | { address: string } | { item: number }} Place
 * @typedef {{ subject: string, rule: string, explained?: string, metBy: string }} Words
 */

/** The words of faults and findings by their numbers. @type {Map<number, Words>} */
export const RULES = new Map();

/** Adds words by their numbers. @param {Record<string, Words>} words */
export function learnRules(words) {
  for (const [number, each] of Object.entries(words)) {
    RULES.set(Number(number), each);
  }
}

// those of describe/faults.txt, put here when the package is made
learnRules(/*FAULTS*/{});

/** @param {number | bigint} number */
export const hex = number => `0x${number.toString(16)}`;

/**
 * Where a fault is, as petool says it: `at 0x138` of a file, `at RVA 0x1000`, an address or a number.
 * @param {Place} place
 */
export function placeText(place) {
  if ('file' in place) {
    return `at ${hex(place.file)}`;
  }
  if ('rva' in place) {
    return `at RVA ${hex(place.rva)}`;
  }
  return 'address' in place ? place.address : String(place.item);
}

/** A file, or a set of images, is refused. */
export class Fault extends Error {
  /** @param {{ number: number, image: number, place: Place, subject: string, rule: string, values?: Record<string, number | string> }} told */
  constructor({ number, image, place, subject, rule, values = {} }) {
    super(`${subject} ${placeText(place)}: ${rule}`);
    this.name = 'Fault';
    this.number = number;
    this.image = image;
    this.place = place;
    this.subject = subject;
    this.rule = rule;
    this.values = values;
  }

  /** The fault of a line such as `fault 13 image 0 file 0x00000138`. @param {string} line */
  static ofLine(line) {
    const found = /^fault (\d+) image (\d+) (file|rva|address|item) (0x[0-9a-f]+|\d+)(?: cycle (\d+))?\n/.exec(line);
    if (!found) {
      throw new Error(`this is not the line of a fault: ${line}`);
    }
    const [, number, image, kind, place, cycle] = found;
    const words = RULES.get(Number(number)) ?? { subject: 'file', rule: `fault ${number}` };
    const values = cycle ? { length: Number(cycle) } : {};
    return new Fault({
      number: Number(number),
      image: Number(image),
      place: kind === 'address' ? { address: `0x${BigInt(place).toString(16)}` } : { [kind]: Number(place) },
      subject: words.subject,
      rule: words.rule,
      values,
    });
  }
}

/**
 * What a fault or a finding means, and which files have it.
 * @param {number} number
 */
export function explain(number) {
  return RULES.get(number);
}
