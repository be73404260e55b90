// What an image needs of the others that are open.

/** A module's name, as a loader compares it: the case of ASCII letters does not matter. @param {string} name */
const folded = name => name.replace(/[A-Z]/g, letter => letter.toLowerCase());

/**
 * An image, and those of the others that it imports from, that these import from, and so on.
 * @param {import('./session.mjs').Session} first
 * @param {import('./session.mjs').Session[]} images
 */
export function neededBy(first, images) {
  const byName = new Map(images.map(image => [folded(image.name), image]));
  const found = new Set([first]);
  // a set is gone through in the order in which it grows
  for (const { line } of found) {
    for (const { module } of line.imports ?? []) {
      const needed = module && byName.get(folded(module));
      if (needed) {
        found.add(needed);
      }
    }
  }
  return found;
}
