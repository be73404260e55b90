// The code in JavaScript on the pages for users, run in a folder with the package that PETOOL_JS names and with vb.dll. What stands
// below one heading, or in README.md behind the words that name the language, is one module, with all its blocks in their order; where
// the page calls them so, `bytes` are those of vb.dll.

import assert from 'node:assert/strict';
import { execFileSync } from 'node:child_process';
import { copyFileSync, cpSync, mkdtempSync, readFileSync, rmSync, writeFileSync } from 'node:fs';
import { tmpdir } from 'node:os';
import { join } from 'node:path';
import { after, before, test } from 'node:test';
import { fileURLToPath } from 'node:url';

const pathOf = name => fileURLToPath(new URL(`../../../${name}`, import.meta.url));
const GIVEN = "import { readFileSync as readBytes } from 'node:fs';\nconst bytes = readBytes('vb.dll');\n";
// vb.dll has the ImageBase 0x20000000; its first export is that of the ordinal 5, at the RVA 0x1004, and its last g, at the RVA 0x1010
const PIECES = [
  ['README.md', 'From [JavaScript]', /^0x20000000 g\n$/],
  ['bindings/js/README.md', '# petool for JavaScript', /^0x20000000 g RVA 0x0*1010 /],
  ['docs/LIBRARIES.md', '## From JavaScript', /^RVA 0x0*1004 [^]*Uint8Array\(2\) \[ 77, 90 \]\n$/],
];
let folder;

before(() => {
  folder = mkdtempSync(join(tmpdir(), 'petool-pages-'));
  cpSync(process.env.PETOOL_JS, folder, { recursive: true });
  copyFileSync(pathOf('crates/test_cases/data/vb.dll'), join(folder, 'vb.dll'));
});

after(() => rmSync(folder, { recursive: true, force: true }));

/** The code of a page after some words, up to the next heading. @param {string} page @param {string} words */
function codeOf(page, words) {
  const text = readFileSync(pathOf(page), 'utf8');
  const at = text.indexOf(words);
  assert.ok(at >= 0, `${page} has no '${words}'`);
  const [below] = text.slice(at + words.length).split(/^#/m);
  return [...below.matchAll(/^ {4}(.*\n)/gm)].map(([, line]) => line).join('');
}

for (const [page, words, printed] of PIECES) {
  test(`${page}: ${words}`, () => {
    const code = codeOf(page, words);
    writeFileSync(join(folder, 'example.mjs'), `${/\bbytes\b/.test(code) ? GIVEN : ''}${code}`);
    assert.match(execFileSync(process.execPath, ['example.mjs'], { cwd: folder, encoding: 'utf8' }), printed);
  });
}
