// Tests of what the page computes without a browser.

import assert from 'node:assert/strict';
import { execFileSync } from 'node:child_process';
import { test } from 'node:test';
import { baseOf, spread } from '../src/bases.mjs';
import { asCsv, asJson, cellText, columnsOf, sorted } from '../src/cells.mjs';
import { unpackLzma } from '../src/lzma.mjs';
import { fileOf, memberAt } from '../src/members.mjs';
import { neededBy } from '../src/needed.mjs';
import { offsetOf, partsAt, partsOf, rvaOf } from '../src/parts.mjs';
import { nameOf, shownName } from '../src/names.mjs';
import { fewer, partAt, placeIn, spansOf } from '../src/spans.mjs';
import { factsOf } from '../src/summary.mjs';
import { tablesOf } from '../src/tables.mjs';
import { shortening } from '../src/texts.mjs';
import { archiveLines, imageLine, objectLine } from './long_lists.mjs';

const section = (index, name, virtual, raw, characteristics) => ({
  index, name, virtual_address: virtual[0], virtual_size: virtual[1], pointer_to_raw_data: raw[0], size_of_raw_data: raw[1], characteristics, characteristics_flags: [],
});

// headers, code, data of which the file holds a half, data that the file does not hold, and an export table in the code
const IMAGE = {
  format: 'PE32',
  headers: { size_of_headers: 0x200, size_of_image: 0x5000, pointer_to_symbol_table: 0, number_of_symbols: 0 },
  directories: [{ index: 0, name: 'export', virtual_address: 0x1100, size: 0x40 }, { index: 1, name: 'import', virtual_address: 0, size: 0 }, { index: 4, name: 'certificate', virtual_address: 0x800, size: 0x100 },
    { index: 6, name: 'debug', virtual_address: 0, size: 28 }],
  sections: [section(0, '.text', [0x1000, 0x300], [0x200, 0x400], 0x60000020), section(1, '.data', [0x2000, 0x400], [0x600, 0x200], 0xc0000040), section(2, '.bss', [0x3000, 0x100], [0, 0], 0xc0000080)],
};

test('the parts of an image are where its headers say, and what is behind them is one too', () => {
  const parts = partsOf({ line: IMAGE, members: [], length: 0x1000 });
  assert.deepEqual(parts.map(({ name, kind, file, image }) => [name, kind, file && [file.at, file.size], image && [image.at, image.size]]), [
    ['headers', 'headers', [0, 0x200], [0, 0x200]],
    ['.text', 'code', [0x200, 0x400], [0x1000, 0x300]],
    ['.data', 'write', [0x600, 0x200], [0x2000, 0x400]],
    ['.bss', 'write', undefined, [0x3000, 0x100]],
    ['export table', 'table', [0x300, 0x40], [0x1100, 0x40]],
    ['certificate table', 'table', [0x800, 0x100], undefined],
    ['overlay', 'behind', [0x800, 0x800], undefined],
  ]);
  assert.deepEqual([0x1000, 0x12ff, 0x1300, 0x21ff, 0x2200, 0x3000].map(rva => offsetOf(parts, rva)), [0x200, 0x4ff, undefined, 0x7ff, undefined, undefined]);
  assert.deepEqual([0x200, 0x4ff, 0x500, 0x7ff, 0x800].map(offset => rvaOf(parts, offset)), [0x1000, 0x12ff, undefined, 0x21ff, undefined]);
  const found = partsAt(parts, { rva: 0x1110, offset: 0x310 });
  assert.deepEqual([found.part.name, found.table.table], ['.text', 'exports']);
});

test('the parts of a refused file, and of an object of either form', () => {
  assert.deepEqual(partsOf({ line: { accepted: false }, members: [], length: 70 }).map(({ name, file }) => [name, file.size]), [['file', 70]]);
  assert.deepEqual(partsOf({ line: { accepted: false }, members: [], length: 0 }), []);
  const sections = [{ name: '.text', number: 1, size_of_raw_data: 8, pointer_to_raw_data: 200, pointer_to_relocations: 208, virtual_address: 0, characteristics: 0x60000020, relocations: [{ virtual_address: 4, symbol_table_index: 0, type: 4 }] }];
  for (const [format, headers, symbol] of [['COFF', { size_of_optional_header: 0 }, 18], ['BIGOBJ', {}, 20]]) {
    const line = { format, headers: { ...headers, pointer_to_symbol_table: 218, number_of_symbols: 2 }, sections, symbols: [] };
    const parts = partsOf({ line, members: [], length: 300 });
    assert.deepEqual(parts.map(({ name, file }) => [name, file.at, file.size]), [
      ['headers', 0, (format === 'COFF' ? 20 : 56) + 40], ['.text', 200, 8], ['relocations of .text', 208, 10], ['symbols', 218, 2 * symbol], ['strings', 218 + 2 * symbol, 300 - 218 - 2 * symbol],
    ]);
  }
});

test('each part of a bar is seen, and all together fill it', () => {
  const parts = [[0, 10], [10, 1_000_000], [1_000_010, 1]].map(([at, size]) => ({ name: '', kind: 'read', file: { at, size } }));
  const bar = spansOf(parts, 'file', 0.05);
  const spans = [...bar.values()];
  assert.ok(spans.every(({ begin, end }) => end - begin >= 0.05));
  assert.ok(spans.every(({ begin }, index) => index === 0 || begin === spans[index - 1].end));
  assert.equal(spans[0].begin, 0);
  assert.ok(Math.abs(spans[2].end - 1) < 1e-9);
  assert.equal(partAt(bar, 'file', 500_010), parts[1]);
  const middle = (spans[1].begin + spans[1].end) / 2;
  assert.ok(Math.abs(placeIn(bar, 'file', 500_010) - middle) < 1e-9);
  assert.equal(placeIn(bar, 'file', 2_000_000), spans[2].end);
});

test('of many parts neighbours are joined', () => {
  const parts = Array.from({ length: 1500 }, (_, at) => ({ name: `n${at}`, kind: 'member', file: { at: at * 10, size: 10 } }));
  const joined = fewer(parts);
  assert.ok(joined.length <= 600);
  assert.equal(joined[0].name, 'n0 to n2');
  assert.deepEqual(joined.at(-1).file, { at: 14_970, size: 30 });
  assert.equal(joined.reduce((sum, { file }) => sum + file.size, 0), 15_000);
});

test('cells, and their forms as text', () => {
  assert.equal(cellText('rva', 4096), '0x1000');
  assert.equal(cellText('ordinal', 4096), '4096');
  assert.equal(cellText('value', 2n ** 40n), '0x10000000000');
  assert.equal(cellText('forward', { module: 'ntdll', name: 'f' }), 'ntdll f');
  assert.equal(cellText('characteristics_flags', ['MEM_READ', 'MEM_WRITE']), 'MEM_READ MEM_WRITE');
  const rows = [{ name: 'a,b', rva: 1 }, { name: 'say "x"', ordinal: 2 }, { name: 'two\nlines', rva: 16n }];
  const columns = columnsOf(rows);
  assert.deepEqual(columns, ['name', 'rva', 'ordinal']);
  assert.equal(asCsv(rows, columns, (key, row) => cellText(key, row[key])), 'name,rva,ordinal\r\n"a,b",0x1,\r\n"say ""x""",,2\r\n"two\nlines",0x10,\r\n');
  assert.deepEqual(JSON.parse(asJson(rows)).at(-1), { name: 'two\nlines', rva: '0x10' });
});

test('of an object in a cell the names stand behind what else there is', () => {
  assert.equal(cellText('forward', { module: 'ordinal 1', ordinal: 7 }), 'ordinal 7 ordinal 1');
});

test('numbers are sorted by their size, also those of 64 bits, and before letters', () => {
  const rows = ['0x20', 'b', 9, '0x100000000', undefined, 'a'].map(key => ({ key }));
  assert.deepEqual(sorted(rows, { key: 'key', way: 1 }).map(({ key }) => key), [9, '0x20', '0x100000000', undefined, 'a', 'b']);
  assert.deepEqual(sorted(rows, { key: 'key', way: -1 }).map(({ key }) => key), ['b', 'a', undefined, '0x100000000', '0x20', 9]);
});

test('numbers of 64 bits that differ in their last digits are sorted apart', () => {
  const rows = ['0xffff800000001008', 0xffff800000001000n, '0xffff800000001004', 2 ** 53, '0xfffffffffffffffff'].map(key => ({ key }));
  // the last has more digits than such a number: it is a name
  assert.deepEqual(sorted(rows, { key: 'key', way: 1 }).map(({ key }) => key), [2 ** 53, 0xffff800000001000n, '0xffff800000001004', '0xffff800000001008', '0xfffffffffffffffff']);
});

test('a name that a spreadsheet would run is text in comma-separated values', () => {
  const rows = ['=1+1', '@foo@8', '+x', '-x', '\tx', '-2', 'a=b'].map(name => ({ name }));
  assert.equal(asCsv(rows, ['name'], (key, row) => row[key]), ['name', '"\'=1+1"', '"\'@foo@8"', '"\'+x"', '"\'-x"', '"\'\tx"', '-2', 'a=b', ''].join('\r\n'));
  assert.deepEqual(JSON.parse(asJson(rows)), rows);
});

test('a resource is called by what its id stands for, and a text is a name of its own', () => {
  const types = [16, '16', 'constructor', 4711].map(type => ({ rva: 0x1000, size: 1, code_page: 0, type }));
  const { rows, shows } = tablesOf({ headers: {}, resources: types }, [], false).find(({ id }) => id === 'resources');
  assert.deepEqual(rows.map(({ type }) => shows.type(type)), ['16 version', '16', 'constructor', '4711']);
});

test('each string of version information has the key of its table', () => {
  const version = { rva: 4096, file_version: [1, 2, 3, 4], string_tables: [{ key: '040904b0', strings: [{ key: 'ProductName', value: 'a' }] }, { key: '000004b0', strings: [{ key: 'ProductName', value: 'b' }] }] };
  const { rows } = tablesOf({ headers: {}, version }, [], false).find(({ id }) => id === 'version');
  assert.deepEqual(rows, [
    { field: 'file_version', value: '1.2.3.4' }, { field: 'rva', value: '0x1000' }, { field: 'ProductName', value: 'a', table: '040904b0' }, { field: 'ProductName', value: 'b', table: '000004b0' },
  ]);
});

test('images get their own base, unless another has it', () => {
  const headers = ['0x10000000', '0x10000000', '0x180000000'].map(image_base => ({ image_base, size_of_image: 0x12345 }));
  assert.deepEqual(spread(headers), [0x10000000n, 0x10020000n, 0x180000000n]);
  assert.deepEqual([baseOf(' 0x180000000 '), baseOf('7fF0000')], [0x180000000n, 0x7ff0000n]);
  for (const text of ['', 'x', '0x', '12345678901234567', '-1']) {
    assert.throws(() => baseOf(text), /is no address/);
  }
});

test('thousands of images of one base stand one behind the other, around those that have a base of their own', () => {
  const many = Array.from({ length: 4000 }, () => ({ image_base: '0x180000000', size_of_image: 0x10001 }));
  const bases = spread([{ image_base: '0x10030000', size_of_image: 0x1000 }, ...many]);
  assert.deepEqual(bases.slice(0, 5), [0x10030000n, 0x180000000n, 0x10000000n, 0x10040000n, 0x10060000n]);
  assert.equal(bases.at(-1), 0x10040000n + 0x20000n * 3997n);
  assert.equal(new Set(bases).size, bases.length);
});

test('twenty thousand images of the base at which those begin that are moved get theirs in a moment', () => {
  const many = Array.from({ length: 20_000 }, () => ({ image_base: '0x10000000', size_of_image: 0x10000 }));
  const began = process.cpuUsage();
  const bases = spread(many);
  assert.ok(process.cpuUsage(began).user < 5_000_000);
  assert.equal(bases.at(-1), 0x10000000n + 0x10000n * 19_999n);
});

test('an image needs those that it imports from, and what these need', () => {
  const image = (name, ...modules) => ({ name, line: { imports: modules.map(module => ({ module })) } });
  const images = [image('a.dll', 'B.DLL', 'missing.dll'), image('b.dll', 'c.dll'), image('C.dll', 'a.dll'), image('d.dll', 'a.dll')];
  assert.deepEqual([...neededBy(images[0], images)].map(({ name }) => name), ['a.dll', 'b.dll', 'C.dll']);
});

test('a member of an archive is a file of its own, without a name in front of it', async () => {
  const head = (name, size) => `${name.padEnd(16)}${'0'.padEnd(12)}${'0'.padEnd(6)}${'0'.padEnd(6)}${'644'.padEnd(8)}${String(size).padEnd(10)}\`\n`;
  const blob = new Blob([`!<arch>\n${head('a.obj/', 4)}four${head('#1/8', 12)}long.objeven`]);
  const members = [{ member: 'a.obj', offset: 8, size: 4, format: 'COFF' }, { member: 'long.obj', offset: 72, size: 12, fault: {} }, { member: '/', offset: 144, size: 1 }];
  const session = { blob, line: { format: 'archive' }, members };
  for (const [offset, name, text] of [[8, 'a.obj', 'four'], [71, 'a.obj', 'four'], [72, 'long.obj', 'even']]) {
    const file = await fileOf(session, memberAt(session, offset));
    assert.deepEqual([file.name, await file.text()], [name, text]);
  }
  assert.equal(memberAt(session, 150), null);
  assert.equal(memberAt({ ...session, line: { format: 'thin archive' } }, 8), null);
});

test('rows lead to the places that they are about', () => {
  const line = {
    ...IMAGE, exports: [{ ordinal: 1, rva: 0x1010, name: 'f' }, { ordinal: 2, forward: { module: 'm', name: 'g' } }], imports: [], fixups: [{ rva: 0x1004, bits: 32 }, { rva: 0x1ffe, bits: 32 }, { rva: 0x2000, bits: 32 }],
    symbols: [{ index: 0, name: 's', value: 4, section_number: 2 }], certificates: [{ offset: 0x800, length: 0x100, signers: [{ subject: 'A' }, { subject: 'B' }] }], findings: [],
  };
  const tables = new Map(tablesOf(line, [], false).map(table => [table.id, table]));
  const placesOf = id => tables.get(id).rows.map(row => tables.get(id).place(row));
  assert.deepEqual(placesOf('exports'), [{ rva: 0x1010, size: undefined, name: 'f' }, null]);
  assert.deepEqual(placesOf('directories'), [{ rva: 0x1100, size: 0x40, name: 'export table' }, null, { offset: 0x800, size: 0x100, name: 'certificate table' }, null]);
  assert.deepEqual(placesOf('symbols'), [{ rva: 0x2004, name: 's' }]);
  assert.deepEqual(tables.get('pages').rows, [{ rva: 0x1000, fields: 2 }, { rva: 0x2000, fields: 1 }]);
  assert.deepEqual(tables.get('signers').rows, [{ subject: 'A', offset: 0x800 }, { subject: 'B', offset: 0x800 }]);
  assert.deepEqual(['imports', 'findings', 'modules', 'debug'].map(id => tables.has(id)), [true, false, false, false]);
});

test('a name stands in one line beside words, without what turns their direction, and is cut by itself', () => {
  assert.equal(shownName(`  a${' '.repeat(500)}b\n\u202ec\u00a0\u2003d\ufeff `), 'a b c d');
  assert.equal(shownName('x'.repeat(500), 10), 'xxxxxxxxxx..');
  assert.equal(shownName(' \u200b '), '');
  assert.deepEqual([nameOf({ name: 'a' }), nameOf({ name_hex: 'ff00' }), nameOf({})], ['a', 'bytes ff00', '']);
});

const HEADERS = { image_base: '0x10000000', size_of_image: 0x1000, time_date_stamp: 0, address_of_entry_point: 0 };
const factOf = (line, term) => factsOf({ line: { headers: HEADERS, ...line }, isImage: true, hasAll: true }).find(fact => fact.term === term)?.words;
const signature = (subject, rest = { fits: true }) => ({ digest_algorithm: 'SHA-256', digest_hex: '00', signers: [{ subject: 'CA', issuer: 'CA' }, { subject, issuer: 'CA' }], ...rest });

test('whether a signature fits stands before whose it is, whatever name that has', () => {
  const changed = 'the file was changed since: by ';
  assert.equal(factOf({ certificates: [signature('Example', { fits: false })] }, 'Signed'), `${changed}Example`);
  assert.equal(factOf({ certificates: [signature(`Example${' '.repeat(500)}which is not verified here`, { fits: false })] }, 'Signed'), `${changed}Example which is not verified here`);
  assert.equal(factOf({ certificates: [signature('x'.repeat(5000), { fits: false })] }, 'Signed'), `${changed}${'x'.repeat(80)}..`);
  assert.equal(factOf({ certificates: [signature(' '.repeat(500), { fits: false })] }, 'Signed'), `${changed}a name of blanks`);
  assert.equal(factOf({ certificates: [signature('Example')] }, 'Signed'), 'not verified here, but its digest fits: by Example');
});

test('without the tables beyond the profile nothing is said of signatures, but that it is not told', () => {
  const termsOf = rest => factsOf({ line: { headers: HEADERS }, isImage: true, hasAll: false, ...rest }).filter(({ words }) => words === 'not told').map(({ term }) => term);
  assert.deepEqual(termsOf({ missing: 'there is not enough memory' }), ['Product', 'Signed', 'Findings']);
  assert.deepEqual(termsOf({ missing: '' }), []);
});

test('what is not told of a signature is not said of it', () => {
  const untold = [{}, { digest_algorithm: undefined }, { digest_algorithm: undefined, digest_hex: undefined }];
  for (const rest of untold) {
    assert.match(factOf({ certificates: [signature('Example', rest)] }, 'Signed'), /^not verified here, and (whether it fits is not told, since|no digest in it can be read).*: by Example$/);
  }
  assert.equal(new Set(untold.map(rest => factOf({ certificates: [signature('Example', rest)] }, 'Signed'))).size, 3);
});

test('the worst of many signatures is told first, and what is no signature is no signer', () => {
  const fitting = Array.from({ length: 50 }, (_, index) => signature(`Fitting ${index}`));
  assert.equal(factOf({ certificates: [...fitting, signature('Example', { fits: false })] }, 'Signed'),
    'the file was changed since: by Example; not verified here, but its digest fits: by 50 signers, the first of them Fitting 0, Fitting 1, Fitting 2');
  assert.equal(factOf({ certificates: [{ offset: 1024, length: 8, type: 2, signers: [] }] }, 'Signed'), 'no: what its certificate table has is no signature that can be read');
  assert.equal(factOf({ certificates: [{ offset: 1024, length: 8, type: 1 }, signature('Example')] }, 'Signed'), 'not verified here, but its digest fits: by Example');
  assert.deepEqual([factOf({ certificates: [] }, 'Signed'), factOf({}, 'Signed')], ['no', 'no']);
});

test('a signature is of the first of its certificates that none of the others was issued by', () => {
  const ownerOf = signers => factOf({ certificates: [{ digest_hex: '00', digest_algorithm: 'SHA-256', fits: true, signers }] }, 'Signed').replace(/^.*: by /, '');
  assert.equal(ownerOf([{ subject: 'Root', issuer: 'Root' }, { subject: 'CA', issuer: 'Root' }, { subject: 'Leaf', issuer: 'CA' }]), 'Leaf');
  assert.equal(ownerOf([{ subject: 'Self', issuer: 'Self' }]), 'Self');
  assert.equal(ownerOf([{ subject: 'A', issuer: 'B' }, { subject: 'B', issuer: 'A' }]), 'A');
  assert.equal(ownerOf([{ subject_hex: 'ff', issuer: 'CA' }]), 'bytes ff');
  assert.equal(ownerOf([{ issuer: 'CA' }]), 'an unknown signer');
  assert.equal(ownerOf([]), 'an unknown signer');
});

test('how many modules there are stands before their names, and each other name is a fact of its own', () => {
  const imports = Array.from({ length: 9 }, (_, index) => ({ module: index ? `m${index}.dll` : `m0${' '.repeat(500)}.dll` }));
  assert.equal(factOf({ imports: imports.slice(0, 2) }, 'Imports'), '2, from m0 .dll, m1.dll');
  assert.equal(factOf({ imports }, 'Imports'), '9, from 9 modules, the first of them m0 .dll, m1.dll, m2.dll, m3.dll, m4.dll, m5.dll');
  const version = { file_version: [1, 2, 3, 4], string_tables: [{ key: 't', strings: [] }, { key: 'u', strings: [{ key: 'ProductName', value: '' }, { key: 'ProductName', value: 'y'.repeat(500) }] }] };
  assert.deepEqual([factOf({ version }, 'Version'), factOf({ version }, 'Product')], ['1.2.3.4', `${'y'.repeat(200)}..`]);
});

/** How often the rows of a file are read for all that the page tells of it, if its lists have so many rows. */
function readsOf(linesOf, rows) {
  let reads = 0;
  const counted = value => (typeof value !== 'object' || value === null ? value : new Proxy(value, {
    get: (target, key) => {
      reads += 1;
      return Array.isArray(target) && typeof target[key] === 'function' ? target[key] : counted(target[key]);
    },
    ownKeys: target => {
      reads += 1;
      return Reflect.ownKeys(target);
    },
  }));
  const lines = counted(linesOf(rows));
  const line = lines.at(-1);
  const members = lines.slice(0, -1);
  const isObject = line.format === 'COFF';
  const parts = partsOf({ line, members, length: 2 ** 30 });
  spansOf(fewer(parts), 'file', 0.01);
  memberAt({ line, members }, 2 ** 29);
  factsOf({ line, isImage: line.format === 'PE32', hasAll: true });
  neededBy({ name: 'a.dll', line }, [{ name: 'b.dll', line }]);
  for (const { rows: shown, place } of tablesOf(line, members, isObject)) {
    const columns = columnsOf(shown);
    columns.forEach(key => sorted(shown, { key, way: 1 }));
    asCsv(shown, columns, (key, row) => cellText(key, row[key]));
    shown.forEach(row => place?.(row));
  }
  return reads;
}

test('what the page computes reads rows as often as there are rows, in files that have many of each kind', () => {
  for (const linesOf of [imageLine, objectLine, archiveLines]) {
    const [few, many] = [500, 2000].map(rows => readsOf(linesOf, rows));
    assert.ok(few > 500 && many < 4.5 * few, `${few} reads for 500 rows, ${many} for 2000`);
  }
});

test('of a long text no more is written as JSON than is shown', () => {
  const long = { texts: Array.from({ length: 400 }, (_, index) => `${index}`.padEnd(1000, 'x')), more: Array.from({ length: 400 }, () => Array.from({ length: 400 }, () => 'y')) };
  const shown = JSON.stringify(long, shortening(), 1);
  assert.ok(shown.length < 250_000, `${shown.length} letters`);
  assert.equal(shown.slice(0, 200_000), JSON.stringify(long, null, 1).slice(0, 200_000));
  const list = Array.from({ length: 501 }, (_, index) => index);
  assert.deepEqual(JSON.parse(JSON.stringify({ list }, shortening())), { list: ['the first 500 of 501:', ...list.slice(0, 500)] });
});

// what is packed by Python: nothing, one byte, a run, text, bytes without a pattern, the same a long way behind, and near repeats
const PACKER = `
import lzma, random, struct, sys
random.seed(1)
noise = random.randbytes(70000)
near = b"".join(struct.pack("<IH", 4 * n, n * n % 65536) for n in range(20000))
samples = [b"", b"a", bytes(100000), b"to be or not to be, " * 50, noise, noise + bytes(range(256)) * 3 + noise, near]
for filters in [{}, {"lc": 0, "lp": 2, "pb": 0}, {"lc": 4, "lp": 0, "pb": 4}]:
    for sample in samples:
        packed = lzma.compress(sample, format=lzma.FORMAT_ALONE, filters=[{"id": lzma.FILTER_LZMA1, "preset": 9 | lzma.PRESET_EXTREME, **filters}])
        for each in (sample, packed):
            sys.stdout.buffer.write(struct.pack("<I", len(each)) + each)
`;

test('what Python packs as LZMA is unpacked', () => {
  const told = execFileSync('python3', ['-c', PACKER], { maxBuffer: 2 ** 24 });
  const texts = [];
  for (let at = 0; at < told.length; at += 4 + told.readUInt32LE(at)) {
    texts.push(told.subarray(at + 4, at + 4 + told.readUInt32LE(at)));
  }
  assert.equal(texts.length, 42);
  for (let index = 0; index < texts.length; index += 2) {
    assert.ok(texts[index].equals(unpackLzma(texts[index + 1])), `sample ${index / 2}`);
    assert.throws(() => unpackLzma(texts[index + 1].subarray(0, -1)), /end too early/, `sample ${index / 2}, cut`);
  }
});
