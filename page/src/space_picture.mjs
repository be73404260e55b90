// The address space as a picture: the images in the order of their bases, and how far they are apart.

import { hex } from '../../bindings/js/fault.mjs';
import { count, drawn } from './dom.mjs';
import { shownName } from './names.mjs';

const GAP = 22;
const LEAST = 46;
// what the largest image has more
const MORE = 50;
const KINDS = ['read', 'write', 'behind', 'headers'];

/** A size as people say it. @param {bigint} bytes */
function sizeText(bytes) {
  const units = ['bytes', 'KB', 'MB', 'GB', 'TB', 'PB', 'EB'];
  let value = Number(bytes);
  let unit = 0;
  for (; value >= 1024 && unit < units.length - 1; unit += 1) {
    value /= 1024;
  }
  return `${count(unit ? Number(value.toPrecision(3)) : value)} ${units[unit]}`;
}

/** The shapes of one image. */
function imageShapes({ name, base, size, index }, y, height, moved) {
  const range = `${hex(base)} to ${hex(base + BigInt(size) - 1n)}`;
  const from = moved === undefined ? '' : `, moved from ${hex(moved)}`;
  const words = `${range}, ${count(size)} bytes${from}: ${shownName(name)}`;
  return [
    drawn('rect', { x: 0, y, width: '100%', height, class: `image ${KINDS[index % KINDS.length]}${from && ' moved'}`, role: 'img', 'aria-label': words }, drawn('title', {}, words)),
    drawn('text', { x: 10, y: y + 19, class: 'name' }, `${sizeText(BigInt(size))}${from}: ${shownName(name)}`),
    drawn('text', { x: 10, y: y + 37, class: 'range' }, range),
  ];
}

/**
 * The picture of these images.
 * @param {{ name: string, base: bigint, size: number }[]} images
 * @param {Map<number, bigint>} moved the images that were moved, each with its base before
 */
export function spacePicture(images, moved) {
  const sorted = images.map((image, index) => ({ ...image, index })).sort((a, b) => (a.base < b.base ? -1 : 1));
  const largest = Math.max(...sorted.map(({ size }) => size), 1);
  const shapes = [];
  let y = 0;
  let end = null;
  for (const image of sorted) {
    if (end !== null) {
      const free = image.base - end;
      shapes.push(drawn('text', { x: 10, y: y + 15, class: 'free' }, free ? `${sizeText(free)} between` : 'next to it'));
      y += GAP;
    }
    const height = LEAST + (MORE * image.size) / largest;
    shapes.push(...imageShapes(image, y, height, moved.get(image.index)));
    y += height;
    end = image.base + BigInt(image.size);
  }
  return drawn('svg', { id: 'space', height: y, role: 'group', 'aria-label': 'The address space' }, ...shapes);
}
