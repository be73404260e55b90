// What runs beside the page: one worker holds one file, and one the images that are mapped.

import { MOST_BYTES, OutOfMemory } from '../../bindings/js/engine.mjs';
import { Fault } from '../../bindings/js/fault.mjs';
import { OpenedFile } from '../../bindings/js/file.mjs';
import { Space } from '../../bindings/js/space.mjs';

const PROGRESS_MILLISECONDS = 100;
// of a longer file the headers are told while the rest is read, once so many bytes are there
const LONG_BYTES = 2 ** 20;
const HEAD_BYTES = 4096;
// the page makes objects of a text, which take several times as much memory
const MOST_TEXT_BYTES = 128 * 2 ** 20;
/** @type {WebAssembly.Module} */
let module;
/** @type {OpenedFile} */
let file;
/** whether what the headers of the file say is told, as it is of a long one before all of it is read */
let isHeadTold;
/** the images that are to be mapped @type {{ name: string, base: bigint, bytes: Uint8Array }[]} */
let entries;
/** @type {Space} */
let space;

/**
 * What the line of a file says by its headers, if these are among its first bytes, and zeros stand in place of the others yet. What its
 * tables say is left out, and whether it is accepted.
 * @param {number} read how many bytes are there
 */
function headOf(read) {
  const { format, pe_offset, headers, directories, sections } = JSON.parse(file.json().trimEnd().split('\n').at(-1));
  return sections && headers.size_of_headers <= read ? { format, pe_offset, headers, directories, sections } : undefined;
}

/**
 * Puts bytes of the file, which come in order, into the memory of its calls. What its headers say is returned once.
 * @param {number} at
 * @param {Uint8Array} bytes
 */
function write(at, bytes) {
  const end = at + bytes.length;
  file.bytes(at, end).set(bytes);
  if (isHeadTold || end < HEAD_BYTES) {
    return undefined;
  }
  isHeadTold = true;
  return headOf(end);
}

/**
 * Makes room for the file and reads it, so that it is in memory once. Says how many bytes were there, or nothing if the browser lets
 * no worker read: then `write` brings them.
 * @param {File} blob
 * @param {(progress: { read: number, head?: object }) => void} tell
 */
async function load(blob, tell) {
  file = OpenedFile.reserve(module, blob.size, { name: blob.name, mostText: MOST_TEXT_BYTES });
  isHeadTold = blob.size < LONG_BYTES;
  let read = 0;
  let told = performance.now();
  const reader = blob.stream().getReader();
  for (;;) {
    const part = await reader.read().catch(() => null);
    if (!part) {
      return undefined;
    }
    if (part.done) {
      return read;
    }
    const head = write(read, part.value);
    read += part.value.length;
    if (head || performance.now() - told > PROGRESS_MILLISECONDS) {
      told = performance.now();
      tell({ read, head });
    }
  }
}

/** The lines of the file, and how much memory it takes with them. */
const line = () => ({ text: file.json(), memoryBytes: file.memoryBytes });

/** Begins a map of images of so many bytes, each of which `image` then brings. */
function begin(size) {
  if (size > MOST_BYTES) {
    throw new OutOfMemory(`these images have ${Math.ceil(size / 2 ** 20)} MB together, which is more than the ${MOST_BYTES / 2 ** 20} MB that they may have`);
  }
  entries = [];
}

const toldOf = ({ images, bindings, unbound }) => ({ images, bindings, unbound });

const calls = {
  start: compiled => {
    module = compiled;
  },
  load,
  write,
  line,
  all: options => file.json({ all: true, ...options }),
  at: (place, as) => file.at(place, { as }),
  show: options => file.show(options),
  begin,
  image: entry => {
    entries.push(entry);
  },
  map: options => {
    space = new Space(module, entries, options);
    entries = [];
    return toldOf(space);
  },
  move: (image, base) => {
    space.move(image, base);
    return toldOf(space);
  },
};

/** What of an error the page can show. */
function errorOf(error) {
  if (error instanceof Fault) {
    const { number, image, place, subject, rule, values, message } = error;
    return { message, fault: { number, image, place, subject, rule, values } };
  }
  return { message: error instanceof OutOfMemory ? error.message : `petool failed: ${error.message}` };
}

onmessage = async ({ data: { id, call, words } }) => {
  try {
    const tell = call === 'load' ? [progress => postMessage({ id, progress })] : [];
    postMessage({ id, result: await calls[call](...words, ...tell) });
  } catch (error) {
    postMessage({ id, error: errorOf(error) });
  }
};
