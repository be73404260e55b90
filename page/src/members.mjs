// The members of an archive as files of their own.

const HEADER = 60;
// a name that stands before the member's bytes, whose length follows
const NAME_IN_FRONT = /^#1\/(\d+) *$/;
const NAME = 16;

/** Whether a member can be shown by itself: an object, or what is refused as one. */
const isShown = ({ format, fault }) => format !== 'import object' && Boolean(format ?? fault);

/**
 * The member that has this place, if the archive holds its bytes and it can be shown by itself.
 * @param {import('./session.mjs').Session} session
 * @param {number | undefined} offset
 */
export function memberAt({ line, members }, offset) {
  const found = members.find(({ offset: at, size }) => offset !== undefined && offset >= at && offset < at + HEADER + size);
  return line.format === 'archive' && found && isShown(found) ? found : null;
}

/** The bytes of a member as a file. @param {import('./session.mjs').Session} session @param {object} member @returns {Promise<File>} */
export async function fileOf({ blob }, { member, offset, size }) {
  const field = new TextDecoder('latin1').decode(await blob.slice(offset, offset + NAME).arrayBuffer());
  const inFront = Number(NAME_IN_FRONT.exec(field)?.[1] ?? 0);
  const begin = offset + HEADER;
  return new File([blob.slice(begin + Math.min(inFront, size), begin + size)], member || 'member');
}
