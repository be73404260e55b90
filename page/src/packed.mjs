// What the page holds in compressed form.

import { byId } from './dom.mjs';
import { unpackLzma } from './lzma.mjs';

/**
 * The bytes that an element holds, compressed and written in base 64. To unpack the module takes a tenth of a second, in which the page
 * stands already.
 * @param {string} id
 */
export async function unpacked(id) {
  await new Promise(wake => setTimeout(wake));
  return unpackLzma(Uint8Array.from(atob(byId(id).textContent), character => character.charCodeAt(0)));
}
