// The parts of a file, as its picture shows them: where each is in the file, and where in the image in memory.

import { nameOf } from './names.mjs';
import { DIRECTORY_TABLES } from './tables.mjs';

/**
 * @typedef {{ at: number, size: number }} Range
 * @typedef {object} Part
 * @property {string} name
 * @property {string} kind the class of its colour
 * @property {string} [table] the table that is about it
 * @property {Range} [file]
 * @property {Range} [image]
 * @property {boolean} [isTable] whether it is a table that lies in another part
 */

const EXECUTE = 0x20000000;
const WRITE = 0x80000000;
// bytes of the header and of a symbol of both forms of an object, of a section header, and of a relocation
const FORMS = { COFF: { header: 20, symbol: 18 }, BIGOBJ: { header: 56, symbol: 20 } };
const SECTION_HEADER = 40;
const RELOCATION = 10;
const MEMBER_HEADER = 60;

/** Whether this is the format of an object. @param {string | undefined} format */
export const isObjectFormat = format => format in FORMS;

/** The class of a section's colour, by its flags. @param {number} flags */
function kindOf(flags) {
  if (flags & EXECUTE) {
    return 'code';
  }
  return flags & WRITE ? 'write' : 'read';
}

/** How large a section is in memory. */
const sizeOf = section => section.virtual_size || section.size_of_raw_data;

const hasBytes = section => section.size_of_raw_data && section.pointer_to_raw_data;

/** The symbols, if there are some. @param {object} headers @param {number} size of each */
function symbolPart({ pointer_to_symbol_table: at, number_of_symbols: many }, size) {
  return at && many ? [{ name: 'symbols', kind: 'behind', table: 'symbols', file: { at, size: size * many } }] : [];
}

function imageParts({ headers, sections, directories }) {
  const head = { at: 0, size: headers.size_of_headers };
  const parts = [
    { name: 'headers', kind: 'headers', table: 'headers', file: head, image: head },
    ...sections.map(section => ({
      name: nameOf(section) || `section ${section.index}`,
      kind: kindOf(section.characteristics),
      table: 'sections',
      image: { at: section.virtual_address, size: sizeOf(section) },
      ...(hasBytes(section) ? { file: { at: section.pointer_to_raw_data, size: section.size_of_raw_data } } : {}),
    })),
    ...symbolPart(headers, FORMS.COFF.symbol),
  ];
  return [...parts, ...directories.filter(({ virtual_address: at, size }) => at && size).map(directory => directoryPart(parts, directory))];
}

/** A table that a directory names, which lies in a section, or for certificates behind them. */
function directoryPart(parts, { name, virtual_address: at, size }) {
  const table = DIRECTORY_TABLES[name];
  if (name === 'certificate') {
    return { name: 'certificate table', kind: 'table', table, isTable: true, file: { at, size } };
  }
  const offset = offsetOf(parts, at);
  return { name: `${name} table`, kind: 'table', table, isTable: true, image: { at, size }, ...(offset === undefined ? {} : { file: { at: offset, size } }) };
}

function objectParts({ format, headers, sections }) {
  const { header, symbol } = FORMS[format];
  const head = header + (headers.size_of_optional_header ?? 0) + SECTION_HEADER * sections.length;
  const parts = [{ name: 'headers', kind: 'headers', table: 'headers', file: { at: 0, size: head } }];
  for (const section of sections) {
    const name = nameOf(section) || `section ${section.number}`;
    if (hasBytes(section)) {
      parts.push({ name, kind: kindOf(section.characteristics), table: 'sections', file: { at: section.pointer_to_raw_data, size: section.size_of_raw_data } });
    }
    if (section.relocations.length) {
      parts.push({ name: `relocations of ${name}`, kind: 'relocations', table: 'fixups', file: { at: section.pointer_to_relocations, size: RELOCATION * section.relocations.length } });
    }
  }
  return [...parts, ...symbolPart(headers, symbol)];
}

/** The members of an archive; a thin one has no more of them than their headers. */
function archiveParts({ format }, members) {
  const sizeIn = member => MEMBER_HEADER + (format === 'thin archive' && !nameOf(member, 'member').startsWith('/') ? 0 : member.size);
  return members
    .filter(member => member.offset !== undefined && member.size !== undefined)
    .map(member => ({ name: nameOf(member, 'member') || 'member', kind: 'member', table: 'members', file: { at: member.offset, size: sizeIn(member) } }));
}

/** What the file has behind all parts. */
function behind(parts, length, words) {
  const end = parts.reduce((most, { file }) => (file ? Math.max(most, file.at + file.size) : most), 0);
  return end < length ? [{ name: words, kind: 'behind', table: 'overlay', file: { at: end, size: length - end } }] : [];
}

/** The parts that the lines of a file name. */
function toldParts(line, members) {
  if (members.length || line.archive !== undefined) {
    return archiveParts(line, members);
  }
  if (!line.headers || !line.sections) {
    return [];
  }
  return isObjectFormat(line.format) ? objectParts(line) : imageParts(line);
}

/**
 * The parts of a file by what its lines tell.
 * @param {{ line: object, members: object[], length: number }} file
 * @returns {Part[]}
 */
export function partsOf({ line, members, length }) {
  const parts = toldParts(line, members);
  const within = parts.filter(({ isTable }) => !isTable);
  if (!parts.length) {
    return behind([], length, 'file');
  }
  return [...parts, ...behind(within, length, within.at(-1).table === 'symbols' ? 'strings' : 'overlay')];
}

/** The file offset of an RVA, if the file holds it. @param {Part[]} parts @param {number} rva */
export function offsetOf(parts, rva) {
  const part = parts.find(({ file, image, isTable }) => !isTable && file && image && rva >= image.at && rva - image.at < Math.min(file.size, image.size));
  return part && part.file.at + rva - part.image.at;
}

/** The RVA of a file offset, if the image has it. @param {Part[]} parts @param {number} offset */
export function rvaOf(parts, offset) {
  const part = parts.find(({ file, image, isTable }) => !isTable && file && image && offset >= file.at && offset - file.at < Math.min(file.size, image.size));
  return part && part.image.at + offset - part.file.at;
}

/**
 * The part that a place is in, and the table that lies there.
 * @param {Part[]} parts
 * @param {{ rva?: number, offset?: number }} place
 */
export function partsAt(parts, { rva, offset }) {
  const there = parts.filter(({ file, image }) => isIn(image, rva) || isIn(file, offset));
  return { part: there.find(({ isTable }) => !isTable), table: there.find(({ isTable }) => isTable) };
}

/** @param {Range | undefined} range @param {number | undefined} at */
const isIn = (range, at) => range !== undefined && at !== undefined && at >= range.at && at - range.at < range.size;
