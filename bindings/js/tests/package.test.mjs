// Tests of the package: PETOOL_JS names its folder, PETOOL_PROGRAM the program that it is compared with, if there is one.

import assert from 'node:assert/strict';
import { execFileSync, spawnSync } from 'node:child_process';
import { mkdtempSync, readFileSync, readdirSync, rmSync } from 'node:fs';
import { tmpdir } from 'node:os';
import { join } from 'node:path';
import { test } from 'node:test';
import { pathToFileURL } from 'node:url';

const FOLDER = process.env.PETOOL_JS;
const PROGRAM = process.env.PETOOL_PROGRAM;
const CASES = new URL('../../../crates/test_cases/data/', import.meta.url);
const FILES = readdirSync(CASES).filter(name => /\.(dll|obj|bin)$/.test(name));
const { open, map, explain, Fault, OutOfMemory } = await import(pathToFileURL(join(FOLDER, 'petool.mjs')));
const { Engine } = await import(pathToFileURL(join(FOLDER, 'engine.mjs')));

const bytesOf = name => new Uint8Array(readFileSync(new URL(name, CASES)));

/** What the program prints, and its status. */
function printed(words, name) {
  const { stdout, status } = spawnSync(PROGRAM, words, { cwd: CASES, encoding: 'utf8', maxBuffer: 2 ** 28 });
  assert.ok(status === 0 || status === 1, `${words} ${name}`);
  return stdout;
}

const compares = PROGRAM ? {} : { skip: 'left out without program' };

// vb.dll exports g, by the ordinal 7 too, at the RVA 0x1010
test('an image is read', () => {
  const file = open(bytesOf('vb.dll'), { name: 'vb.dll' });
  assert.equal(file.format, 'PE32');
  assert.equal(file.headers.machine_name, 'I386');
  assert.deepEqual(file.exports.filter(({ name }) => name === 'g').map(({ rva }) => rva), [0x1010]);
  assert.equal(file.sections.length, file.headers.number_of_sections);
  assert.match(file.at(0x1010), /g/);
  assert.throws(() => file.at(0x1010, { as: 'offset' }), RangeError);
  assert.deepEqual(file.bytes(0, 2), Uint8Array.of(0x4d, 0x5a));
  assert.equal(file.check(), 'accepted PE32 sections 1\n');
});

test('a file that was cut is refused, with the numbers that the rule compares', () => {
  const short = bytesOf('v1.dll').subarray(0, 520);
  assert.throws(() => open(short), error => {
    assert.ok(error instanceof Fault && error instanceof Error);
    assert.equal(error.number, 13);
    assert.deepEqual(error.place, { file: 0x138 });
    assert.equal(error.subject, 'section header');
    assert.equal(error.rule, "the section's raw data extends past the end of the file");
    assert.deepEqual(error.values, { size: 16, offset: 512, file_size: 520 });
    assert.equal(error.message, "section header at 0x138: the section's raw data extends past the end of the file");
    return true;
  });
  const file = open(short, { refused: true });
  assert.equal(file.fault.number, 13);
  assert.equal(file.headers.number_of_sections, 1);
  assert.throws(() => file.check(), { number: 13, subject: 'section header' });
  assert.equal(file.lines('check'), 'fault 13 image 0 file 0x00000138\n');
});

test('a fault is explained', () => {
  assert.match(explain(13).explained, /SizeOfRawData/);
  assert.equal(explain(9999), undefined);
});

test('an object is read', () => {
  const file = open(bytesOf('o1.obj').buffer);
  assert.equal(file.format, 'COFF');
  assert.ok(file.symbols.length > 0);
  assert.equal(file.headers.size_of_image, undefined);
});

// The example of the guide: v1.dll at 0x20000000 holds 0, 1, 2 .. from the RVA 0x1000
test('images are mapped, read and moved', () => {
  const space = map([{ name: 'v1.dll', bytes: bytesOf('v1.dll'), base: 0x20000000 }]);
  assert.deepEqual(space.images, [{ name: 'v1.dll', base: 0x20000000n, size: 0x3000 }]);
  const numbers = Uint8Array.of(0, 1, 2, 3, 4, 5, 6, 7, 8, 9, 10, 11, 12, 13, 14, 15, 0);
  assert.deepEqual(space.read(0x20001000, 17), numbers);
  space.move(0, '0x30000000');
  assert.deepEqual(space.read(0x30001000n, 17), numbers);
  assert.throws(() => space.read(0x20001000, 1), { number: 54, place: { address: '0x20001000' } });
  assert.throws(() => space.read(0x30001000, 2 ** 32), RangeError);
});

test('a move that may not be is refused, and moves nothing', () => {
  const entries = ['va.dll', 'vb.dll'].map((name, index) => ({ name: ['A.dll', 'b.dll'][index], bytes: bytesOf(name), base: 0x10000000 * (index + 1) }));
  const space = map(entries);
  assert.throws(() => space.move(0, 0x20000000), Fault);
  assert.throws(() => space.move(2, 0x30000000), RangeError);
  assert.equal(space.images[0].base, 0x10000000n);
});

// The example of the guide: vc.dll imports f from A.DLL, into the slot 0x1030
test('imports of missing modules are told', () => {
  const vc = [{ name: 'vc.dll', bytes: bytesOf('vc.dll').buffer, base: 0x400000 }];
  assert.deepEqual(map(vc, { known: true }).unbound, [{ image: 0, slot: 0x1030, module: 'A.DLL', name: 'f' }]);
  assert.throws(() => map(vc), { number: 48 });
});

test('what an import is bound to is the address in its slot', () => {
  const entries = [['A.dll', 'va.dll', 0x10000000], ['b.dll', 'vb.dll', 0x20000000], ['vc.dll', 'vc.dll', 0x400000]].map(([name, file, base]) => ({ name, bytes: bytesOf(file), base }));
  const space = map(entries);
  for (const { image, slot, exporter, rva, value } of space.bindings) {
    assert.equal(value, space.images[exporter].base + BigInt(rva));
    const bytes = space.read(space.images[image].base + BigInt(slot), 4);
    assert.equal(BigInt(new DataView(bytes.buffer).getUint32(0, true)), value);
  }
  assert.ok(space.bindings.some(({ image }) => image === 2));
});

test('a file for another base and back is as before, but for CheckSum', () => {
  const old = bytesOf('v2.dll');
  const there = open(old).rebase('0xfff00000');
  assert.notDeepEqual(there, old);
  const back = open(there).rebase(BigInt(open(old).headers.image_base));
  const differing = [...back.keys()].filter(index => back[index] !== old[index]);
  const checkSum = open(old).line.pe_offset + 24 + 64;
  assert.ok(differing.every(index => index >= checkSum && index < checkSum + 4));
  assert.throws(() => open(old).rebase(0x1234), { number: 44 });
});

test('a call with little memory is repeated with more', () => {
  const module = new WebAssembly.Module(readFileSync(join(FOLDER, 'petool32.wasm')));
  const few = new Engine(module);
  const bytes = bytesOf('vc.dll');
  const held = few.hold(bytes);
  const { status, text } = few.call('check', [held], { text: 0, heap: 0 });
  assert.equal(status, 0);
  assert.equal(new TextDecoder().decode(text), open(bytes).check());
});

test('a file that is too large is refused with words', () => {
  const large = { length: 500 * 2 ** 20 };
  Object.setPrototypeOf(large, Uint8Array.prototype);
  assert.throws(() => open(large), error => error instanceof OutOfMemory && /500 MB/.test(error.message));
});

test('a text that is too long is refused with words', () => {
  assert.throws(() => open(bytesOf('vb.dll'), { mostText: 1000 }), error => error instanceof OutOfMemory && /text/.test(error.message));
  assert.ok(open(bytesOf('vb.dll'), { mostText: 10_000 }).json().length < 10_000);
});

test('every changed byte leaves the module alive', () => {
  const old = bytesOf('vb.dll');
  for (let index = 0; index < 512; index += 1) {
    const changed = old.slice();
    changed[index] ^= 0xff;
    const file = open(changed, { refused: true });
    assert.equal(file.line.accepted, file.fault === null);
  }
});

test('check, dump and object print what the program prints', compares, () => {
  for (const name of FILES) {
    const file = open(bytesOf(name), { name, refused: true });
    for (const command of ['check', 'dump', 'object']) {
      assert.equal(file.lines(command), printed([command, name], name), `${command} ${name}`);
    }
  }
});

test('json prints what the program prints, with all and without', compares, () => {
  for (const name of FILES) {
    const file = open(bytesOf(name), { name, refused: true });
    assert.equal(file.json(), printed(['json', name], name));
    assert.equal(file.json({ all: true, functions: true, digests: true }), printed(['json', '--all', '--functions', name], name));
  }
});

test('show and at print what the program prints', compares, () => {
  for (const name of FILES) {
    const file = open(bytesOf(name), { name, refused: true });
    const tables = ['exports', 'imports', 'relocations', 'symbols', 'debug', 'functions', 'unwind', 'tls', 'load', 'resources', 'trust'];
    assert.equal(file.show({ tables }), printed(['show', '--all', name], name));
    assert.equal(file.at(0x1010), printed(['at', name, '1010'], name));
    assert.equal(file.at(0x40, { as: 'file' }), printed(['at', '--file', name, '40'], name));
  }
});

test('archives are read as the program reads them', compares, () => {
  const folder = mkdtempSync(join(tmpdir(), 'petool-js-'));
  const archive = join(folder, 'two.lib');
  execFileSync(PROGRAM, ['archive', '--create', archive, 'o1.obj', 'two.obj'], { cwd: CASES });
  const file = open(new Uint8Array(readFileSync(archive)), { name: archive, refused: true });
  const lines = execFileSync(PROGRAM, ['archive', archive], { encoding: 'utf8' });
  const told = execFileSync(PROGRAM, ['json', archive], { encoding: 'utf8' });
  rmSync(folder, { recursive: true });
  assert.equal(file.lines('archive'), lines);
  assert.equal(file.json(), told);
  assert.ok(file.members.some(({ member }) => member === 'o1.obj'));
});

test('a rebased file is the one that the program writes', compares, () => {
  const folder = mkdtempSync(join(tmpdir(), 'petool-js-'));
  const out = join(folder, 'out.dll');
  execFileSync(PROGRAM, ['rebase', 'fff00000', 'v2.dll', out], { cwd: CASES });
  const expected = new Uint8Array(readFileSync(out));
  rmSync(folder, { recursive: true });
  assert.deepEqual(open(bytesOf('v2.dll')).rebase(0xfff00000), expected);
});

/** What `petool.d.ts` declares as there for calls: the names of its classes and functions, and the members of its classes. */
function declared() {
  const types = readFileSync(join(FOLDER, 'petool.d.ts'), 'utf8');
  const names = [...types.matchAll(/^export (?:class|function) (\w+)/gm)].map(([, name]) => name);
  const members = [...types.matchAll(/^export class (\w+)[^{]*\{\n(.*?)^\}/gms)].map(([, name, body]) => [name, [...body.matchAll(/^  (?:readonly )?(\w+)\??[(:]/gm)].map(([, member]) => member)]);
  return { names, members: new Map(members) };
}

test('the types are those of what the package exports', async () => {
  const { names, members } = declared();
  const there = await import(pathToFileURL(join(FOLDER, 'petool.mjs')));
  assert.deepEqual(names.toSorted(), Object.keys(there).sort());
  const space = map([{ name: 'v1.dll', bytes: bytesOf('v1.dll'), base: 0x20000000 }]);
  for (const [name, object] of [['OpenedFile', open(bytesOf('vb.dll'))], ['Space', space], ['Fault', open(bytesOf('v1.dll').subarray(0, 520), { refused: true }).fault]]) {
    assert.ok(members.get(name).length > 3, name);
    assert.deepEqual(members.get(name).filter(member => !(member in object)), [], name);
  }
});

test('npm packs what a user needs', process.env.NPM ? {} : { skip: 'left out without npm' }, () => {
  const [packed] = JSON.parse(execFileSync(process.env.NPM, ['pack', '--dry-run', '--json', '--offline'], { cwd: FOLDER, encoding: 'utf8', stdio: ['ignore', 'pipe', 'ignore'] }));
  const names = packed.files.map(({ path }) => path);
  for (const name of ['petool.mjs', 'engine.mjs', 'fault.mjs', 'file.mjs', 'space.mjs', 'petool.d.ts', 'petool64.wasm', 'petool32.wasm', 'package.json', 'README.md']) {
    assert.ok(names.includes(name), name);
  }
});
