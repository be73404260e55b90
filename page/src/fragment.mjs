// The address of the page, which names a file, a place of it, and what is shown of it: `#kernel32.dll/rva/1234/exports`.

/** @typedef {{ rva?: number, offset?: number }} Place */

/** @param {string} name of the file @param {Place | null} place @param {string} tab */
export function addressOf(name, place, tab) {
  const { rva, offset } = place ?? {};
  const steps = [encodeURIComponent(name)];
  if (rva !== undefined) {
    steps.push('rva', rva.toString(16));
  } else if (offset !== undefined) {
    steps.push('file', offset.toString(16));
  }
  return `#${[...steps, ...(tab ? [tab] : [])].join('/')}`;
}

/** What the address of the page asks for. @returns {{ name: string, place: Place | null, tab: string } | null} */
export function addressed() {
  const found = /^#([^/]+)(?:\/(rva|file)\/(?:0x)?([0-9a-f]{1,12}))?(?:\/([a-z_]+))?$/i.exec(location.hash);
  if (!found) {
    return null;
  }
  const [, name, as, digits, tab = ''] = found;
  const at = parseInt(digits, 16);
  try {
    return { name: decodeURIComponent(name), place: as ? { [as.toLowerCase() === 'rva' ? 'rva' : 'offset']: at } : null, tab };
  } catch {
    return null;
  }
}
