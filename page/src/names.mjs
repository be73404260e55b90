// Names that files chose, and how they stand beside words of the page. Such words come first: a name may be as long as it likes, and
// look like words of the page itself.

import { cut } from './dom.mjs';

const MOST_LETTERS = 80;
/** What is not seen, or turns the direction of what stands beside it. */
const UNSEEN = /[\p{White_Space}\p{Cc}\p{Cf}]+/gu;

/** A name as a row has it, or its bytes. */
export const nameOf = (row, key = 'name') => row[key] ?? (row[`${key}_hex`] === undefined ? '' : `bytes ${row[`${key}_hex`]}`);

/** A name as it stands behind words of the page: in one line, and cut by itself. @param {string} name @param {number} [most] letters */
export const shownName = (name, most = MOST_LETTERS) => cut(name.replace(UNSEEN, ' ').trim(), most);
