// The page with a stand-in for its worker, which answers what the file itself says: `{ "line": .., "members": [..], "all": .. }` in JSON.
// What it is asked for and the file does not say fails. So files of any size and content are shown without the module.

import { execFileSync } from 'node:child_process';
import { readFileSync, writeFileSync } from 'node:fs';
import { join } from 'node:path';
import { fileURLToPath } from 'node:url';

const pathOf = name => fileURLToPath(new URL(name, import.meta.url));
// a module of WebAssembly that has nothing
const EMPTY = Uint8Array.of(0x00, 0x61, 0x73, 0x6d, 1, 0, 0, 0);
const WORKER = `
let told = {};
const said = (key, make) => {
  if (told[key] === undefined) {
    throw new Error('there is not enough memory for this');
  }
  return make(told[key]);
};
const calls = {
  start: () => undefined,
  load: async blob => {
    told = JSON.parse(await blob.text());
    return blob.size;
  },
  line: () => ({ text: [...told.members ?? [], told.line].map(each => JSON.stringify(each)).join('\\n'), memoryBytes: 1 }),
  all: () => said('all', JSON.stringify),
  at: () => said('at', text => text),
  show: () => said('show', text => text),
  begin: () => undefined,
  image: () => undefined,
  map: () => said('map', report => report),
};
onmessage = async ({ data: { id, call, words } }) => {
  try {
    postMessage({ id, result: await calls[call](...words) });
  } catch (error) {
    postMessage({ id, error: { message: error.message } });
  }
};
`;

/** Makes the page with its stand-in in a folder. @param {string} folder */
export function pageWithStandIn(folder) {
  const [module, faults, page] = ['module.wasm', 'faults.json', 'petool.html'].map(name => join(folder, name));
  writeFileSync(module, EMPTY);
  writeFileSync(faults, execFileSync(pathOf('../../bindings/js/faults.py')));
  execFileSync(pathOf('../build.py'), [module, faults, page]);
  const parts = readFileSync(page, 'utf8').split(/(<script type="text\/plain" id="worker">)[^]*?(<\/script>)/);
  if (parts.length !== 4) {
    throw new Error('the page has not one worker');
  }
  writeFileSync(page, `${parts[0]}${parts[1]}${WORKER}${parts[2]}${parts[3]}`);
  return page;
}
