// petool for JavaScript: reads Portable Executable images and COFF objects that may be hostile, by the proved calls of petool.wasm.

import { hasMemory64 } from './engine.mjs';
import { OpenedFile } from './file.mjs';
import { Space } from './space.mjs';

export { OutOfMemory } from './engine.mjs';
export { Fault, explain } from './fault.mjs';
export { OpenedFile, Space };

/** The bytes of a file of this package. @param {string} name */
async function read(name) {
  const url = new URL(name, import.meta.url);
  if (url.protocol === 'file:' && globalThis.process?.versions?.node) {
    const { readFile } = await import('node:fs/promises');
    return readFile(url);
  }
  const response = await fetch(url);
  if (!response.ok) {
    throw new Error(`${url} cannot be had: ${response.status} ${response.statusText}`);
  }
  return response.arrayBuffer();
}

// node 20 can validate a memory with 64-bit addresses only with a flag, and WebKit not at all: these take the other form
const module = await WebAssembly.compile(await read(hasMemory64() ? './petool64.wasm' : './petool32.wasm'));

/** @param {Uint8Array | ArrayBuffer} bytes */
const viewOf = bytes => (bytes instanceof Uint8Array ? bytes : new Uint8Array(bytes));

/**
 * Opens an image, an object or an archive. A refused file is thrown as a `Fault`, unless `refused` is true.
 * @param {Uint8Array | ArrayBuffer} bytes
 * @param {import('./file.mjs').Options} [options]
 */
export function open(bytes, options = {}) {
  return OpenedFile.open(module, viewOf(bytes), options);
}

/**
 * Maps images together. A set that may not stand so is thrown as a `Fault`.
 * @param {{ name: string, bytes: Uint8Array | ArrayBuffer, base: number | bigint | string }[]} entries
 * @param {{ known?: boolean }} [options]
 */
export function map(entries, options) {
  return new Space(module, entries.map(({ name, bytes, base }) => ({ name, bytes: viewOf(bytes), base })), options);
}
