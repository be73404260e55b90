// How files come to the page: dropped or chosen, one by one or in folders.

import { byId, count } from './dom.mjs';

// What a folder holds is asked for by handles where there are some, as in Chromium, which reads no entries for a page from disk, and
// by entries elsewhere, as in Firefox.

/** What was found: the files, and how many of the others cannot be read. */
class Found {
  /** @type {File[]} */
  files = [];
  unread = 0;

  /** Goes on, whatever one of many files or folders is like. @param {() => Promise<void>} step */
  async try(step) {
    try {
      await step();
    } catch {
      this.unread += 1;
    }
  }
}

/** Adds the files of a handle, also of folders in folders. @param {FileSystemHandle | null} handle @param {Found} found */
async function addHandle(handle, found) {
  if (handle?.kind === 'file') {
    found.files.push(await handle.getFile());
  } else if (handle) {
    for await (const each of handle.values()) {
      await found.try(() => addHandle(each, found));
    }
  }
}

/** Adds the files of an entry, also of folders in folders. @param {FileSystemEntry} entry @param {Found} found */
async function addEntry(entry, found) {
  if (entry.isFile) {
    found.files.push(await new Promise((resolve, reject) => entry.file(resolve, reject)));
    return;
  }
  const reader = entry.createReader();
  for (;;) {
    const entries = await new Promise((resolve, reject) => reader.readEntries(resolve, reject));
    if (!entries.length) {
      return;
    }
    for (const each of entries) {
      await found.try(() => addEntry(each, found));
    }
  }
}

/** What was dropped, which must be asked for before the event ends. @param {DataTransfer} transfer @returns {Promise<Found>} */
async function dropped({ items, files }) {
  const found = new Found();
  const loose = [...files];
  const entries = [...items].map(item => item.webkitGetAsEntry?.()).filter(Boolean);
  if (!entries.some(entry => entry.isDirectory)) {
    found.files = loose;
    return found;
  }
  const handles = [...items].map(item => item.getAsFileSystemHandle?.()).filter(Boolean);
  const steps = handles.length ? handles.map(handle => async () => addHandle(await handle, found)) : entries.map(entry => () => addEntry(entry, found));
  await Promise.all(steps.map(step => found.try(step)));
  return found;
}

/**
 * Hands over the files that are dropped or chosen.
 * @param {(files: File[]) => void} open
 * @param {(words: string) => void} tell
 */
export function listenForFiles(open, tell) {
  for (const kind of ['', '-folder']) {
    const input = byId(kind ? 'folder-input' : 'files-input');
    byId(`choose${kind}`).addEventListener('click', () => input.click());
    input.addEventListener('change', () => {
      open([...input.files]);
      input.value = '';
    });
  }
  const show = isOver => document.body.classList.toggle('over', isOver);
  addEventListener('dragover', event => {
    event.preventDefault();
    show(true);
  });
  addEventListener('dragleave', event => event.relatedTarget || show(false));
  addEventListener('drop', event => {
    event.preventDefault();
    show(false);
    dropped(event.dataTransfer).then(found => {
      open(found.files);
      if (found.unread) {
        tell(`${count(found.unread)} of the files and folders that were dropped cannot be read.`);
      }
    });
  });
}
