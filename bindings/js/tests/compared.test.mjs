// Compares what the module answers with what the program prints, to the byte, for real files and for such that were cut or changed.
// PETOOL_JS names the folder of the package, PETOOL_PROGRAM the program, and PETOOL_FILES folders with real files.

import assert from 'node:assert/strict';
import { execFile } from 'node:child_process';
import { mkdtempSync, readFileSync, readdirSync, rmSync, statSync, writeFileSync } from 'node:fs';
import { tmpdir } from 'node:os';
import { join } from 'node:path';
import { after, before, test } from 'node:test';
import { pathToFileURL } from 'node:url';

const { PETOOL_JS: FOLDER, PETOOL_PROGRAM: PROGRAM } = process.env;
const FOLDERS = (process.env.PETOOL_FILES ?? '').split(':').filter(Boolean);
const REAL = 500;
const CHANGED = 2000;
const MOST_CHANGED_BYTES = 2 ** 19;
const KINDS = /\.(dll|exe|sys|drv|ocx|cpl|acm|ax|a|o)$/i;
const COMMANDS = ['check', 'dump', 'object'];
const BASE = 0x140000000n;
const NAME = 'file';

const { Engine } = await import(pathToFileURL(join(FOLDER, 'engine.mjs')));
const { guess } = await import(pathToFileURL(join(FOLDER, 'file.mjs')));
// the form that node 20 runs: that for other engines is checked where these are
const module = new WebAssembly.Module(readFileSync(join(FOLDER, 'petool32.wasm')));
const encoder = new TextEncoder();

/** Numbers that are the same in each run. */
let seed = 1;
function below(limit) {
  seed = (Math.imul(seed, 1103515245) + 12345) >>> 0;
  return Math.floor((seed / 2 ** 32) * limit);
}

/** Real files of the folders, in even steps of their names. */
function realFiles() {
  const all = FOLDERS.flatMap(folder => readdirSync(folder).map(name => join(folder, name))).filter(file => KINDS.test(file) && statSync(file).isFile()).sort();
  return Array.from({ length: Math.min(REAL, all.length) }, (_, index) => all[Math.floor((index * all.length) / Math.min(REAL, all.length))]);
}

/** The bytes, cut in one of three cases, and with one to six of them changed, half of these near the beginning. */
function spoilt(bytes) {
  const kept = below(3) ? bytes.slice() : bytes.slice(0, below(bytes.length));
  for (let changes = 1 + below(6); kept.length && changes; changes -= 1) {
    kept[below(below(2) ? Math.min(kept.length, 1024) : kept.length)] = below(256);
  }
  return kept;
}

const startsWith = (bytes, word) => bytes.length >= word.length && [...word].every((letter, index) => bytes[index] === letter.charCodeAt(0));

/** What the module answers for a file: the status and the bytes of each command. */
function answers(bytes) {
  const engine = new Engine(module);
  const file = engine.hold(bytes);
  const name = engine.hold(encoder.encode(NAME));
  const ask = (call, words, more = 0) => {
    const { text, heap } = guess(bytes.length);
    const told = engine.call(call, words, { text, heap: heap + more });
    return { status: told.status, text: Buffer.from(told.text) };
  };
  const found = { json: ask('json', [name, file, false, false, false, false]), all: ask('json', [name, file, true, true, true, true]) };
  for (const command of startsWith(bytes, '!<') ? [...COMMANDS, 'archive'] : COMMANDS) {
    found[command] = ask(command, [file]);
  }
  if (startsWith(bytes, 'MZ')) {
    const set = engine.holdEntries([{ name, file, base: BASE }]);
    found.map = ask('map', [set, true, true, 0n, 0], 4 * bytes.length);
  }
  return found;
}

const WORDS = { all: ['json', '--all', '--functions', '--symbols', NAME], map: ['map', '--known', '--unbound', `${BASE.toString(16)}=${NAME}`] };
const words = command => WORDS[command] ?? [command, NAME];

let room;
before(() => {
  room = mkdtempSync(join(tmpdir(), 'petool-compared-'));
});
after(() => rmSync(room, { recursive: true }));

/** What the program prints, and its status. */
function printed(command) {
  return new Promise(resolve => {
    execFile(PROGRAM, words(command), { cwd: room, encoding: 'buffer', maxBuffer: 2 ** 30 }, (error, text) => resolve({ status: error?.code ?? 0, text }));
  });
}

/** The commands for which the module and the program differ. */
async function differing(bytes) {
  writeFileSync(join(room, NAME), bytes);
  const told = answers(bytes);
  const same = await Promise.all(Object.entries(told).map(async ([command, { status, text }]) => {
    const expected = await printed(command);
    return status === expected.status && text.equals(expected.text) ? [] : [command];
  }));
  return same.flat();
}

const lacks = [[PROGRAM, 'program'], [FOLDERS.length, 'libwine']].find(([there]) => !there);
const needed = lacks ? { skip: `left out without ${lacks[1]}` } : {};

test(`${REAL} real files have the program's answers, to the byte`, needed, async () => {
  const files = realFiles();
  assert.equal(files.length, REAL);
  for (const file of files) {
    assert.deepEqual(await differing(new Uint8Array(readFileSync(file))), [], file);
  }
});

test(`${CHANGED} cut or changed files have the program's answers, to the byte`, needed, async () => {
  const small = realFiles().filter(file => statSync(file).size <= MOST_CHANGED_BYTES);
  for (let index = 0; index < CHANGED; index += 1) {
    const file = small[index % small.length];
    const bytes = spoilt(new Uint8Array(readFileSync(file)));
    assert.deepEqual(await differing(bytes), [], `${file}, as the change ${index} leaves it`);
  }
});
