// Where the parts of a file are in a bar of its picture.

import { shownName } from './names.mjs';

/** @typedef {import('./parts.mjs').Part} Part */
/** @typedef {import('./parts.mjs').Range} Range */
/** @typedef {'file' | 'image'} Side */
/** @typedef {{ begin: number, end: number }} Span from 0, the top of a bar, to 1, its bottom */

// more parts are joined with their neighbours
const MOST_PARTS = 600;

/** The range from the first of these to the last. @param {(Range | undefined)[]} ranges */
function joined(ranges) {
  const there = ranges.filter(Boolean);
  const at = Math.min(...there.map(range => range.at));
  return there.length ? { at, size: Math.max(...there.map(range => range.at + range.size)) - at } : undefined;
}

/** The parts, if there are many each with its neighbours. @param {Part[]} parts @returns {Part[]} */
export function fewer(parts) {
  if (parts.length <= MOST_PARTS) {
    return parts;
  }
  const many = Math.ceil(parts.length / MOST_PARTS);
  return Array.from({ length: Math.ceil(parts.length / many) }, (_, index) => {
    const group = parts.slice(index * many, (index + 1) * many);
    return { ...group[0], name: `${shownName(group[0].name)} to ${shownName(group.at(-1).name)}`, file: joined(group.map(({ file }) => file)), image: joined(group.map(({ image }) => image)) };
  });
}

/**
 * Where each part of a bar is: by its size, but never smaller than `least` of the bar, so that it is seen.
 * @param {Part[]} parts @param {Side} side @param {number} least
 * @returns {Map<Part, Span>}
 */
export function spansOf(parts, side, least) {
  const shown = parts.filter(part => part[side] && !part.isTable).sort((a, b) => a[side].at - b[side].at);
  const total = shown.reduce((sum, part) => sum + part[side].size, 0) || 1;
  const each = Math.min(least, 1 / (shown.length || 1));
  const free = 1 - each * shown.length;
  let begin = 0;
  return new Map(shown.map(part => {
    const end = begin + each + (free * part[side].size) / total;
    const span = { begin, end };
    begin = end;
    return [part, span];
  }));
}

/** The part of a bar that has a place, or else the last one before it. @param {Map<Part, Span>} bar @param {Side} side @param {number} at */
export function partAt(bar, side, at) {
  return [...bar.keys()].findLast(part => part[side].at <= at);
}

/** Where a place is in a bar. @param {Map<Part, Span>} bar @param {Side} side @param {number} at */
export function placeIn(bar, side, at) {
  const part = partAt(bar, side, at);
  if (!part) {
    return 0;
  }
  const { begin, end } = bar.get(part);
  return begin + (end - begin) * Math.min(1, (at - part[side].at) / (part[side].size || 1));
}
