// Which tables a file has, and what a click on a row of each selects.

import { cellText } from './cells.mjs';
import { shownName } from './names.mjs';

/**
 * @typedef {{ rva?: number, offset?: number, size?: number, name: string }} Target
 * @typedef {object} Table
 * @property {string} id
 * @property {string} title
 * @property {string} about what its rows are
 * @property {object[]} rows
 * @property {((row: object) => Target | null) | undefined} place where a row leads
 * @property {Record<string, (value: unknown) => string>} [shows] how the cells of some columns are written
 * @property {string[]} [hides] columns that are not shown
 */

const RESOURCE_TYPES = {
  1: 'cursor', 2: 'bitmap', 3: 'icon', 4: 'menu', 5: 'dialog', 6: 'string', 7: 'fontdir', 8: 'font', 9: 'accelerator', 10: 'rcdata', 11: 'messagetable', 12: 'group cursor',
  14: 'group icon', 16: 'version', 17: 'dlginclude', 19: 'plugplay', 20: 'vxd', 21: 'anicursor', 22: 'aniicon', 23: 'html', 24: 'manifest',
};

// tables that are offered even if they have no rows, since that is worth knowing
const EMPTY = ['sections', 'exports', 'imports', 'fixups', 'symbols', 'members'];

const named = row => String(row.name ?? row.module ?? row.key ?? row.member ?? '');

/** What begins at the RVA, or with `offsets` at the file offset, that a column has, and is as long as another one says. */
const byRva = (key, sizeKey) => row => (typeof row[key] === 'number' ? { rva: row[key], size: row[sizeKey], name: named(row) } : null);
const byOffset = (key, sizeKey) => row => (typeof row[key] === 'number' ? { offset: row[key], size: row[sizeKey], name: named(row) } : null);

/** A directory leads to an RVA, that of certificates to a file offset, and one of no bytes, or whose place is 0, nowhere. */
function directoryPlace({ name, virtual_address: at, size }) {
  const target = { size, name: `${name} table` };
  return at && size ? { ...target, ...(name === 'certificate' ? { offset: at } : { rva: at }) } : null;
}

const sectionPlace = section => (section.virtual_address || section.virtual_size ? byRva('virtual_address', 'virtual_size') : byOffset('pointer_to_raw_data', 'size_of_raw_data'))(section);

const debugPlace = row => (row.pointer_to_raw_data ? { offset: row.pointer_to_raw_data, size: row.size_of_data, name: row.type_name ?? 'debug data' } : null);

/** The path of a resource, whose steps are numbers or texts. */
const resourceName = ({ type, name, language }) => `resource ${[type, name, language].map(step => shownName(String(step))).join('/')}`;

/** A finding leads to its place, whose name is its subject. */
function findingPlace({ place, subject }) {
  return place.rva === undefined ? { offset: place.file, name: subject } : { rva: place.rva, name: subject };
}

/** A symbol of an image leads to where its value is in its section. @param {object[]} sections */
const symbolPlace = sections => ({ name, value, section_number: number }) => {
  const section = sections[number - 1];
  return section ? { rva: section.virtual_address + value, name } : null;
};

/** A symbol of an object leads to where its value is in the bytes of its section. @param {object[]} sections */
const objectSymbolPlace = sections => ({ name, value, section_number: number }) => {
  const section = sections[number - 1];
  return section?.pointer_to_raw_data && value < section.size_of_raw_data ? { offset: section.pointer_to_raw_data + value, name } : null;
};

// columns of sections that images have for the form's sake
const OF_OBJECTS = ['pointer_to_relocations', 'pointer_to_linenumbers', 'number_of_relocations', 'number_of_linenumbers'];

/** Those columns that are 0 in all rows. @param {object[]} rows @param {string[]} keys */
const zeroColumns = (rows, keys) => keys.filter(key => rows.every(row => row[key] === 0));

/** Base relocations by the page of 4,096 bytes that they are in. @param {{ rva: number }[]} fixups */
function byPage(fixups) {
  const pages = new Map();
  for (const { rva } of fixups) {
    const page = rva - (rva % 4096);
    pages.set(page, (pages.get(page) ?? 0) + 1);
  }
  return [...pages].map(([rva, fields]) => ({ rva, fields }));
}

/** Imports by the module that exports them. @param {{ module?: string }[]} imports */
function byModule(imports) {
  const modules = new Map();
  for (const row of imports) {
    const module = row.module ?? row.module_hex;
    const found = modules.get(module) ?? { module, imports: 0, slot: row.slot };
    found.imports += 1;
    modules.set(module, found);
  }
  return [...modules.values()];
}

/** The fields of a structure as rows. @param {object | undefined} structure */
function fieldsOf(structure) {
  return structure && Object.entries(structure).filter(([, value]) => value !== undefined).map(([field, value]) => ({ field, value: cellText(field, value) }));
}

/** A section without its relocations, which have a table of their own. */
const withoutRelocations = ({ relocations, ...section }) => (relocations ? { ...section, relocations: relocations.length } : section);

/** The relocations of an object, each with its section, its offset in the file and its symbol. */
function relocationsOf({ sections, symbols = [] }) {
  const names = new Map(symbols.map(symbol => [symbol.index, symbol.name ?? symbol.name_hex]));
  return sections.flatMap(section => section.relocations.map(relocation => ({
    section: section.name ?? section.name_hex,
    offset: section.pointer_to_raw_data + relocation.virtual_address - section.virtual_address,
    symbol: names.get(relocation.symbol_table_index),
    ...relocation,
  })));
}

/** The strings of version information and its numbers in one list. */
function versionRows({ string_tables: tables, file_version: file, product_version: product, ...fixed }) {
  const versions = { file_version: file?.join('.'), product_version: product?.join('.') };
  const rows = (tables ?? []).flatMap(({ key: table, strings }) => strings.map(({ key, value }) => ({ field: key, value, table })));
  return [...fieldsOf({ ...versions, ...fixed }), ...rows];
}

/** A member of an archive in one row. */
const memberRow = ({ member, member_hex: bytes, offset, size, format, accepted, fault, import: imported }) => ({
  member: member ?? bytes, offset, size, format, accepted, fault: fault && `${fault.number}: ${fault.rule}`, symbol: imported?.symbol, module: imported?.module, name: imported?.name ?? imported?.ordinal,
});

/** The signers of all signatures, each with the offset of its certificate's entry. */
const signersOf = certificates => certificates.flatMap(({ offset, signers }) => (signers ?? []).map(signer => ({ ...signer, offset })));

function imageTables(line, add) {
  add('sections', 'Sections', 'The parts of the image, each with the use that its memory allows.', line.sections, sectionPlace);
  add('directories', 'Directories', 'Where the tables are that the headers name.', line.directories, directoryPlace);
  add('exports', 'Exports', 'What other modules may import from this one.', line.exports, byRva('rva'));
  add('imports', 'Imports', 'What this image needs from other modules, and the slot that gets its address.', line.imports, byRva('slot'));
  add('modules', 'Imports by module', 'The modules that it needs, and how much of each.', byModule(line.imports ?? []), byRva('slot'));
  add('delay_imports', 'Delay imports', 'What it imports only when it first calls it.', line.delay_imports, byRva('slot'));
  add('fixups', 'Relocations', 'The fields that change if the image is laid out at another base.', line.fixups, byRva('rva'));
  add('pages', 'Relocations by page', 'How many of these fields begin in each page of 4,096 bytes.', byPage(line.fixups ?? []), byRva('rva'));
  add('resources', 'Resources', 'Icons, dialogs, texts, version information and other data, by type, name and language.', line.resources, row => ({ ...byRva('rva', 'size')(row), name: resourceName(row) }));
  add('version', 'Version', 'What the version information says.', line.version && versionRows(line.version));
  add('functions', 'Functions', 'The functions of the exception table, with their unwind information.', line.functions, byRva('begin'));
  add('symbols', 'Symbols', 'The symbols that the linker left in the file.', line.symbols, line.sections && symbolPlace(line.sections));
  add('debug', 'Debug data', 'The entries of the debug directory.', line.debug, debugPlace);
  add('pdb', 'PDB file', 'The file with the debug information of this image.', fieldsOf(line.pdb));
  add('tls', 'TLS', 'The template of the data that each thread has for itself, and what is called for it.', fieldsOf(line.tls));
  add('load_configuration', 'Load configuration', 'Settings for the loader, and the tables of its guards.', fieldsOf(line.load_configuration));
  add('bound_imports', 'Bound imports', 'The modules whose addresses were written into the file ahead of time.', line.bound_imports);
  add('clr', 'CLR', 'The header of a program for .NET.', fieldsOf(line.clr));
  add('certificates', 'Certificates', 'The entries of the certificate table. That a digest fits says nothing of whether the signature is valid.', line.certificates?.map(({ signers, ...entry }) => ({ ...entry, signers: signers?.length })), byOffset('offset', 'length'));
  add('signers', 'Signers', 'The certificates of the signatures: whose they are, and who issued them. Nothing says whether anybody is to be trusted.', signersOf(line.certificates ?? []), byOffset('offset'));
  add('rich', 'Rich header', 'What linkers of Microsoft write before the headers.', line.rich && fieldsOf({ ...line.rich, pairs: undefined }));
  add('tools', 'Tools', 'The tools that made the objects of this image, as its Rich header tells them.', line.rich?.pairs);
  add('overlay', 'Behind the sections', 'What the file has after all that is laid out in memory.', line.overlay && [line.overlay], byOffset('offset', 'size'));
  add('sums', 'Sums', 'The check sum, the digest that a signature is to have, and the import hash.', line.check_sum_computed === undefined && line.imphash === undefined ? undefined : fieldsOf({
    check_sum: line.headers?.check_sum, check_sum_computed: line.check_sum_computed, authenticode_sha256_hex: line.authenticode_sha256_hex, imphash: line.imphash,
  }));
}

function objectTables(line, add) {
  add('sections', 'Sections', 'The parts of the object, which a linker joins with those of others.', line.sections?.map(withoutRelocations), byOffset('pointer_to_raw_data', 'size_of_raw_data'));
  add('symbols', 'Symbols', 'The names that the object defines or needs.', line.symbols, line.sections && objectSymbolPlace(line.sections));
  add('fixups', 'Relocations', 'The places in its sections that a linker fills in.', line.sections && relocationsOf(line), byOffset('offset'));
}

function archiveTables(line, members, add) {
  add('members', 'Members', 'The files in this archive. Each can be opened by itself.', members.map(memberRow), byOffset('offset', 'size'));
  add('first_linker_member', 'Symbols', 'The symbols of the first linker member, each with the member that defines it.', line.first_linker_member, byOffset('offset'));
  add('second_linker_member', 'Symbols, sorted', 'The symbols of the second linker member, each with the member that defines it.', line.second_linker_member, byOffset('offset'));
}

// a text is a name of its own, whatever it is
const SHOWS = { resources: { type: type => (typeof type === 'number' && RESOURCE_TYPES[type] ? `${type} ${RESOURCE_TYPES[type]}` : cellText('type', type)) } };

/**
 * The tables of a file by its line, in the order in which they are offered.
 * @param {object} line
 * @param {object[]} members
 * @param {boolean} isObject
 * @returns {Table[]}
 */
export function tablesOf(line, members, isObject) {
  const tables = [];
  const add = (id, title, about, rows, place) => {
    if (rows && (rows.length || EMPTY.includes(id))) {
      tables.push({ id, title, about, rows, place, shows: SHOWS[id], hides: id === 'sections' ? zeroColumns(rows, OF_OBJECTS) : undefined });
    }
  };
  add('findings', 'Findings', 'Rules that tables beyond the first ones break. The file is accepted nevertheless.', line.findings, findingPlace);
  if (line.archive !== undefined) {
    archiveTables(line, members, add);
  } else if (isObject) {
    objectTables(line, add);
  } else {
    imageTables(line, add);
  }
  add('headers', 'Headers', 'The fields of the headers, under their names in the format.', fieldsOf(line.headers));
  return tables;
}

/** The table that a directory names, by the directory's name. */
export const DIRECTORY_TABLES = {
  export: 'exports', import: 'imports', resource: 'resources', exception: 'functions', certificate: 'certificates', 'base relocation': 'fixups', debug: 'debug', TLS: 'tls',
  'load configuration': 'load_configuration', 'bound import': 'bound_imports', 'import address': 'imports', 'delay import': 'delay_imports', CLR: 'clr',
};
