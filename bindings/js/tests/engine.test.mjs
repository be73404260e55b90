// Tests of how memory is lent to the calls of a module, and of what is written and read of numbers and names: PETOOL_JS names the
// folder of the package, of which these need no module.

import assert from 'node:assert/strict';
import { join } from 'node:path';
import { test } from 'node:test';
import { pathToFileURL } from 'node:url';

const { Engine, MOST_BYTES, MOST_TEXT_BYTES, OutOfMemory, wide } = await import(pathToFileURL(join(process.env.PETOOL_JS, 'engine.mjs')));
const { guess } = await import(pathToFileURL(join(process.env.PETOOL_JS, 'file.mjs')));
const { readReport } = await import(pathToFileURL(join(process.env.PETOOL_JS, 'space.mjs')));
const MB = 2 ** 20;

// A module whose one call wants as much memory, and as much room for its text, as the two numbers of its file say; binaryen's wasm-as
// made it of this:
//
// (module
//   (memory (export "memory") 1)
//   (global (export "__heap_base") i64 (i64.const 1024))
//   (func (export "petool_page_check") (param $memory i64) (param $file i64) (param $length i64) (param $text i64) (param $room i64) (param $told i64) (result i32)
//     (i64.store (i32.wrap_i64 (local.get $told)) (i64.const 0))
//     (if (i64.lt_u (i64.load offset=8 (i32.wrap_i64 (local.get $memory))) (i64.load (i32.wrap_i64 (local.get $file)))) (then (return (i32.const 4))))
//     (if (i64.lt_u (local.get $room) (i64.load offset=8 (i32.wrap_i64 (local.get $file)))) (then (return (i32.const 3))))
//     (i64.store (i32.wrap_i64 (local.get $told)) (i64.load offset=8 (i32.wrap_i64 (local.get $file))))
//     (i32.const 0)))
const WANTING = 'AGFzbQEAAAABCwFgBn5+fn5+fgF/AwIBAAUDAQABBgcBfgBCgAgLBywDBm1lbW9yeQIAC19faGVhcF9iYXNlAwARcGV0b29sX3BhZ2VfY2hlY2sAAAo8AToAIAWnQgA3AwAgAKcpAwggAacpAwBUBEBBBA8LIAQgAacpAwhUBEBBAw8LIAWnIAGnKQMINwMAQQAL';
const module = new WebAssembly.Module(Buffer.from(WANTING, 'base64'));

/** What an engine answers for a file that wants so much memory, and room for so long a text. */
function answer(engine, { heap, text }, guess = { text: 64, heap: 64 }) {
  return engine.freeing(() => {
    const file = engine.hold(new Uint8Array(BigUint64Array.of(BigInt(heap), BigInt(text)).buffer));
    return engine.call('check', [file], guess);
  });
}

test('more memory and more room are lent until they suffice', () => {
  for (const wants of [{ heap: 0, text: 0 }, { heap: 100, text: 1 }, { heap: 100 * MB, text: 30 * MB }, { heap: 64, text: 200 * MB }]) {
    const engine = new Engine(module);
    const { status, text } = answer(engine, wants);
    assert.equal(status, 0);
    assert.equal(text.length, wants.text);
    assert.ok(engine.memoryBytes < 5 * (wants.heap + wants.text) + MB, `${engine.memoryBytes} bytes for ${JSON.stringify(wants)}`);
  }
});

test('what a call may take is guessed for a file of any length', () => {
  for (const length of [0, 1, 191, 2 ** 20 + 7]) {
    const { status, text } = answer(new Engine(module), { heap: 100, text: 1 }, guess(length));
    assert.deepEqual([status, text.length], [0, 1], `${length} bytes`);
  }
});

test('numbers of 64 bits are taken whole, or not at all', () => {
  for (const [given, number] of [[0, 0n], [2 ** 53 - 1, 9007199254740991n], ['0xffff800000001008', 0xffff800000001008n], [2n ** 64n - 1n, 0xffffffffffffffffn]]) {
    assert.equal(wide(given), number);
  }
  for (const given of [-1, 2 ** 53, 1.5, NaN, -1n, 2n ** 64n, '0x10000000000000000']) {
    assert.throws(() => wide(given), RangeError, String(given));
  }
  assert.throws(() => wide('no number'), SyntaxError);
});

test('the lines of a report are read, with names of any bytes and addresses of 64 bits', () => {
  const report = [
    'image 0 "\\xef\\xbb\\xbfa\\x22.dll" base 0xffff800000000000 size 0x3000', 'image 1 "b.dll" base 0x10000 size 0x1000', 'bind 1 0x1030 to 0 0x1008 value 0xffff800000001008',
    'unbound 1 0x1034 "C.dll" "f"', 'unbound 1 0x1038 "C.dll" #7', '0xffff800000001008 00 7f ff', '',
  ].join('\n');
  assert.deepEqual(readReport(report), {
    images: [{ name: '\ufeffa".dll', base: 0xffff800000000000n, size: 0x3000 }, { name: 'b.dll', base: 0x10000n, size: 0x1000 }],
    bindings: [{ image: 1, slot: 0x1030, exporter: 0, rva: 0x1008, value: 0xffff800000001008n }],
    unbound: [{ image: 1, slot: 0x1034, module: 'C.dll', name: 'f' }, { image: 1, slot: 0x1038, module: 'C.dll', ordinal: 7 }],
    bytes: [0x00, 0x7f, 0xff],
  });
});

test('a call may use all of the memory that it may have, and not more', () => {
  const engine = new Engine(module);
  assert.equal(answer(engine, { heap: MOST_BYTES - MB, text: 100 }).status, 0);
  assert.equal(engine.memoryBytes, MOST_BYTES);
  assert.throws(() => answer(engine, { heap: MOST_BYTES, text: 100 }), error => error instanceof OutOfMemory && /the 1024 MB of memory/.test(error.message));
  assert.equal(answer(engine, { heap: 100, text: 100 }).status, 0);
});

test('a text is not longer than a string may be, or than a call is told', () => {
  const engine = new Engine(module);
  assert.throws(() => answer(engine, { heap: 100, text: MOST_TEXT_BYTES + 1 }), error => error instanceof OutOfMemory && /of text/.test(error.message));
  assert.equal(answer(engine, { heap: 100, text: 5000 }, { text: 64, heap: 64, most: 5000 }).text.length, 5000);
  assert.throws(() => answer(engine, { heap: 100, text: 5001 }, { text: 64, heap: 64, most: 5000 }), OutOfMemory);
});

test('what is held stays as it is, and is freed again', () => {
  const engine = new Engine(module);
  const held = engine.hold(Uint8Array.of(1, 2, 3));
  const before = engine.reserve(1).at;
  answer(engine, { heap: 50 * MB, text: 10 });
  assert.deepEqual([...engine.view(held)], [1, 2, 3]);
  assert.ok(engine.reserve(1).at < before + 64);
  assert.throws(() => engine.reserve(MOST_BYTES), OutOfMemory);
});
