// Brings the bytes of files to workers. A worker reads its file by itself, which is faster; but in WebKit it cannot if the page was
// opened from disk, and the page reads for it.

// so many bytes are read at a time, so that a file is in memory once
const PART_BYTES = 2 ** 23;

/** @typedef {import('./helper.mjs').Helper} Helper */

/** Bytes of a file, fewer at its end. @param {File} blob @param {number} begin @param {number} end */
export async function bytesOf(blob, begin, end) {
  try {
    return new Uint8Array(await blob.slice(begin, end).arrayBuffer());
  } catch (error) {
    throw new Error(`the file cannot be read: ${error.message}`);
  }
}

/**
 * Brings a file to a worker, and tells how many bytes are read, and once what the headers of a long one say.
 * @param {Helper} helper
 * @param {File} blob
 * @param {(progress: { read: number, head?: object }) => void} tell
 */
export async function load(helper, blob, tell) {
  const read = (await helper.call('load', [blob], { progress: tell })) ?? (await write(helper, blob, tell));
  // zeros would stand in place of the rest
  if (read < blob.size) {
    throw new Error(`of ${blob.size} bytes only ${read} could be read: the file was changed meanwhile`);
  }
}

/** Reads a file for a worker, part by part, and says how many bytes were there. */
async function write(helper, blob, tell) {
  for (let read = 0; ; ) {
    const bytes = await bytesOf(blob, read, read + PART_BYTES);
    if (!bytes.length) {
      return read;
    }
    const at = read;
    read += bytes.length;
    tell({ read, head: await helper.call('write', [at, bytes], { moved: [bytes.buffer] }) });
  }
}

/**
 * Maps images, whose bytes a worker gets one after the other, and gives what `map` tells.
 * @param {Helper} helper
 * @param {{ blob: File, name: string, base: bigint }[]} images
 * @param {{ known: boolean }} options
 */
export async function mapFiles(helper, images, options) {
  await helper.call('begin', [images.reduce((sum, { blob }) => sum + blob.size, 0)]);
  for (const { blob, name, base } of images) {
    const bytes = await bytesOf(blob, 0, blob.size);
    await helper.call('image', [{ name, base, bytes }], { moved: [bytes.buffer] });
  }
  return helper.call('map', [options]);
}
