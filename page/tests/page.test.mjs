// Tests of the page in browsers without a window, with files that are dropped on it. PETOOL_PAGE names the page; CHROMIUM and FIREFOX
// these browsers, WEBKIT the driver of WebKit, PETOOL_PROGRAM the program that it is compared with, PETOOL_DLLS folders with DLLs, and
// PETOOL_SHOTS a folder for screenshots. What is missing is named, and what needs it left out.

import assert from 'node:assert/strict';
import { execFileSync } from 'node:child_process';
import { existsSync, mkdirSync, mkdtempSync, readdirSync, readFileSync, rmSync, statSync, truncateSync, writeFileSync } from 'node:fs';
import { tmpdir } from 'node:os';
import { basename, join } from 'node:path';
import { after, before, describe, test } from 'node:test';
import { fileURLToPath, pathToFileURL } from 'node:url';
import { Chromium } from './chromium.mjs';
import { Firefox } from './firefox.mjs';
import { WebKit } from './webkit.mjs';

const { PETOOL_PAGE: PAGE, PETOOL_PROGRAM: PROGRAM, PETOOL_SHOTS: SHOTS } = process.env;
const FOLDERS = (process.env.PETOOL_DLLS ?? '').split(':').filter(Boolean);
const CASES = fileURLToPath(new URL('../../crates/test_cases/data/', import.meta.url));
const CRAFTED = fileURLToPath(new URL('../../scripts/crafted.py', import.meta.url));
const DLLS = 20;
const CRAFTED_BYTES = 4096;
const TOO_LARGE = 500 * 2 ** 20;
const LONG = 60 * 2 ** 20;
// more than the page keeps the long lists of
const MANY = 40;
// the tables of a page that are lists of the line, and those of them that are offered without rows too
const TABLES = ['sections', 'directories', 'exports', 'imports', 'fixups', 'delay_imports', 'resources', 'debug', 'functions', 'symbols', 'bound_imports', 'findings'];
const EMPTY = ['sections', 'exports', 'imports', 'fixups', 'symbols'];
const url = pathToFileURL(PAGE).href;

/** The images of a folder, in the order of their sizes, but for those with these names. @param {string} folder @param {string[]} names */
function imagesOf(folder, names) {
  const files = readdirSync(folder).filter(name => /\.(dll|exe)$/i.test(name) && !names.includes(name)).map(name => join(folder, name));
  return files.filter(file => statSync(file).isFile()).sort((a, b) => statSync(a).size - statSync(b).size || (a < b ? -1 : 1));
}

/** Real DLLs: of each folder as many as of the others, if it has so many, and of all sizes. */
function realFiles() {
  const folders = FOLDERS.toSorted((a, b) => imagesOf(a, []).length - imagesOf(b, []).length);
  const taken = [];
  folders.forEach((folder, index) => {
    const files = imagesOf(folder, taken.map(file => basename(file)));
    const share = Math.min(files.length, Math.ceil((DLLS - taken.length) / (folders.length - index)));
    taken.push(...Array.from({ length: share }, (_, at) => files[Math.floor((at * files.length) / share)]));
  });
  return taken;
}

/** The line of a file as the program tells it. */
const lineOf = file => JSON.parse(execFileSync(PROGRAM, ['json', '--all', '--functions', '--symbols', basename(file)], { cwd: join(file, '..'), encoding: 'utf8', maxBuffer: 2 ** 29 }));

const needs = (value, name) => (value ? {} : { skip: `left out without ${name}` });

/** The steps that all tests take, in the words of the page. */
class Steps {
  constructor(browser) {
    this.browser = browser;
  }

  /** Drops files, and waits until all are read. */
  async drop(files) {
    const there = await this.browser.ask('document.querySelectorAll("#files li").length');
    await this.browser.drop(files);
    await this.browser.until(`document.querySelectorAll("#files li").length === ${there + files.length} && !document.querySelector("#files progress")`);
  }

  async choose(file) {
    const name = JSON.stringify(`: ${basename(file)}`);
    await this.browser.ask(`[...document.querySelectorAll("#files button")].find(button => button.textContent.endsWith(${name})).click()`);
  }

  async showTab(id) {
    await this.browser.until(`document.getElementById("tab-${id}")`);
    await this.browser.ask(`document.getElementById("tab-${id}").click()`);
  }

  /** What a button of the panel copies. */
  copied(button) {
    return this.browser.ask(`(async () => {
      let copied;
      Object.defineProperty(navigator, 'clipboard', { configurable: true, value: { writeText: async text => { copied = text; } } });
      [...document.querySelectorAll("#panel button")].find(button => button.textContent === ${JSON.stringify(button)}).click();
      await new Promise(wake => setTimeout(wake, 20));
      return copied;
    })()`);
  }

  /** All rows of the table that is shown, as its button copies them. */
  async copiedRows() {
    return JSON.parse(await this.copied('Copy as JSON'));
  }

  /** The lines of the table as its button copies them, but for those with quotes, each a list of cells. */
  async copiedCells() {
    const lines = (await this.copied('Copy as CSV')).split('\r\n').slice(1, -1);
    return lines.map(line => (line.includes('"') ? null : line.split(',')));
  }

  /** Scrolls the table to its end, or back. */
  async scroll(isToEnd) {
    await this.browser.ask(`(async () => {
      const rows = document.querySelector("#panel .rows");
      rows.scrollTop = ${isToEnd ? 'rows.scrollHeight' : 0};
      await new Promise(requestAnimationFrame);
      await new Promise(wake => setTimeout(wake, 20));
    })()`);
  }

  /** The cells that are drawn. */
  drawnCells() {
    return this.browser.ask('[...document.querySelectorAll("#panel tbody tr[aria-rowindex]")].map(row => [...row.cells].map(cell => cell.textContent))');
  }

  /** Opens the member of an archive at the selected place, and waits until it is shown. */
  async openMember() {
    const there = await this.browser.ask('document.querySelectorAll("#files li").length');
    await this.browser.ask('document.getElementById("place-member").click()');
    await this.browser.until(`document.querySelectorAll("#files li").length === ${there + 1} && !document.querySelector("#files progress")`);
    await this.browser.ask('document.querySelector("#files li:last-child button").click()');
  }

  /** Gives an image of the map another base. */
  rebase(index, base) {
    return this.browser.ask(`(() => {
      const input = document.getElementById("base-${index}");
      input.value = "${base}";
      input.dispatchEvent(new Event("change"));
    })()`);
  }

  text(id) {
    return this.browser.ask(`document.getElementById(${JSON.stringify(id)}).textContent`);
  }

  async shot(name) {
    if (SHOTS) {
      mkdirSync(SHOTS, { recursive: true });
      writeFileSync(join(SHOTS, `${this.browser.name}-${name}.png`), await this.browser.shot());
    }
  }
}

/** An archive of files of the test cases, with no member of its own. */
function archiveOf(names) {
  const parts = names.flatMap(name => {
    const bytes = readFileSync(join(CASES, name));
    const header = `${`${name}/`.padEnd(16)}${'0'.padEnd(12)}${'0'.padEnd(6)}${'0'.padEnd(6)}${'644'.padEnd(8)}${String(bytes.length).padEnd(10)}\`\n`;
    return [Buffer.from(header), bytes, Buffer.from(bytes.length % 2 ? '\n' : '')];
  });
  return Buffer.concat([Buffer.from('!<arch>\n'), ...parts]);
}

const withoutRelocations = ({ relocations, ...section }) => (relocations ? { ...section, relocations: relocations.length } : section);

for (const [Browser, program] of [[Chromium, process.env.CHROMIUM], [Firefox, process.env.FIREFOX], [WebKit, process.env.WEBKIT]]) {
  const browserName = Browser.name.toLowerCase();
  describe(browserName, program ? {} : { skip: `left out without ${browserName}` }, () => {
    let browser;
    let steps;
    let folder;

    before(async () => {
      folder = mkdtempSync(join(tmpdir(), 'petool-page-'));
      browser = await Browser.open(program, url);
      steps = new Steps(browser);
    });

    after(async () => {
      await browser?.close();
      rmSync(folder, { recursive: true, force: true });
    });

    test('an image is shown, and a click on a section selects it', async () => {
      await steps.drop([join(CASES, 'vb.dll')]);
      assert.equal(await steps.text('title'), 'accepted vb.dll');
      assert.equal(await steps.text('kind'), 'library for I386 (PE32), 1,024 bytes');
      await browser.ask('document.querySelector("#bars [role=button][aria-label*=\'in memory\'][aria-label*=\'0x1000,\']").dispatchEvent(new MouseEvent("click", { bubbles: true }))');
      await browser.until('document.getElementById("at").textContent.startsWith("RVA 0x01000") || document.getElementById("at").textContent.startsWith("RVA 0x1000")');
      assert.match(await steps.text('hex'), /^00000200 00001000 /);
      assert.equal(await browser.ask('location.hash'), '#vb.dll/rva/1000');
      await steps.shot('image');
    });

    test('a refused file is told with its fault, its place and the rule', async () => {
      const short = join(folder, 'short.dll');
      writeFileSync(short, readFileSync(join(CASES, 'v1.dll')).subarray(0, 520));
      await steps.drop([short]);
      await steps.choose(short);
      const words = await steps.text('fault');
      assert.match(words, /Refused by fault 13: section header at 0x138: the section's raw data extends past the end of the file\./);
      assert.match(words, /PointerToRawData/);
      assert.ok(await browser.ask('Boolean(document.querySelector("#bars line.fault"))'));
      await browser.ask('document.querySelector("#fault button").click()');
      await browser.until('document.querySelector("#hex mark")');
      await steps.shot('refused');
    });

    test('an object and an archive are shown', async () => {
      await steps.drop([join(CASES, 'o1.obj')]);
      await steps.choose('o1.obj');
      assert.equal(await steps.text('kind'), 'object for AMD64 (COFF), 191 bytes');
      await steps.showTab('symbols');
      assert.ok((await steps.copiedRows()).length > 0);
      await steps.shot('object');
      const archive = join(folder, 'two.lib');
      writeFileSync(archive, archiveOf(['o1.obj', 'two.obj']));
      await steps.drop([archive]);
      await steps.choose(archive);
      assert.match(await steps.text('kind'), /^archive of 2 members, /);
      assert.deepEqual((await steps.copiedRows()).map(({ member, offset }) => [member, offset]), [['o1.obj', 8], ['two.obj', 8 + 60 + 192]]);
      await browser.ask('document.querySelector("#panel tbody tr[aria-rowindex=\'2\']").click()');
      await steps.openMember();
      assert.equal(await steps.text('title'), 'accepted o1.obj');
      assert.equal(await steps.text('kind'), 'object for AMD64 (COFF), 191 bytes');
    });

    test('a place is gone to by its RVA, its address or its offset, and the keys go from byte to byte', async () => {
      await steps.choose('vb.dll');
      for (const [as, digits, place] of [['rva', '1010', /file 0x210, RVA 0x1010/], ['offset', '0x211', /file 0x211, RVA 0x1011/], ['address', '20001012', /file 0x212, RVA 0x1012/]]) {
        await browser.ask(`(() => {
          document.getElementById('go-place').value = '${digits}';
          document.getElementById('go-as').value = '${as}';
          document.querySelector('#go button').click();
        })()`);
        assert.match(await steps.text('place-title'), place);
      }
      await browser.ask('document.getElementById("hex").dispatchEvent(new KeyboardEvent("keydown", { key: "ArrowDown", bubbles: true }))');
      assert.match(await steps.text('place-title'), /file 0x222, RVA 0x1022/);
      await browser.until('document.querySelector("#hex mark").dataset.at === String(0x222)');
      await browser.ask('(() => { document.getElementById("go-place").value = "no number"; document.querySelector("#go button").click(); })()');
      assert.equal(await browser.ask('document.getElementById("go-place").getAttribute("aria-invalid")'), 'true');
    });

    test('hostile names stay text', async () => {
      const name = join(folder, '<img src=x onerror=document.title=1>.dll');
      writeFileSync(name, readFileSync(join(CASES, 'names.dll')));
      await steps.drop([name]);
      await steps.choose(name);
      assert.equal(await browser.ask('document.querySelectorAll("img").length'), 0);
      assert.equal(await browser.ask('document.title'), `petool: ${basename(name)}`);
      assert.equal(await steps.text('title'), `accepted ${basename(name)}`);
    });

    test('a file that is too large is refused with words, and the page goes on', async () => {
      const large = join(folder, 'large.dll');
      writeFileSync(large, '');
      truncateSync(large, TOO_LARGE);
      await steps.drop([large]);
      await steps.choose(large);
      assert.match(await steps.text('fault'), /500 MB/);
      await steps.choose('vb.dll');
      assert.equal(await steps.text('title'), 'accepted vb.dll');
    });

    // vb.dll exports g at the RVA 0x1010
    test('of many files each has its tables once it is chosen', async () => {
      await browser.go('about:blank');
      await browser.go(url);
      const many = Array.from({ length: MANY }, (_, index) => join(folder, `many-${index}.dll`));
      many.forEach(file => writeFileSync(file, readFileSync(join(CASES, 'vb.dll'))));
      await steps.drop(many);
      await steps.choose(many.at(-1));
      await steps.showTab('exports');
      assert.deepEqual((await steps.copiedRows()).filter(({ name }) => name === 'g').map(({ rva }) => rva), [0x1010]);
    });

    test('a long file has its picture while it is read', async () => {
      const long = join(folder, 'long.dll');
      writeFileSync(long, readFileSync(join(CASES, 'vb.dll')));
      truncateSync(long, LONG);
      await browser.go('about:blank');
      await browser.go(url);
      await browser.ask(`(() => {
        window.seen = [];
        const title = document.getElementById('title');
        new MutationObserver(() => seen.push([title.textContent, document.querySelectorAll('#bars .part').length, document.getElementById('fault').hidden])).observe(title, { childList: true });
      })()`);
      await steps.drop([long]);
      await browser.until('document.getElementById("tab-exports")');
      const seen = await browser.ask('seen');
      assert.equal(seen[0][0], 'being read long.dll');
      assert.ok(seen[1][1] > 4, 'the picture had no parts');
      assert.equal(seen.at(-1)[0], 'accepted long.dll');
      assert.ok(seen.every(([, , isHidden]) => isHidden));
      assert.equal(await steps.text('kind'), `library for I386 (PE32), ${LONG.toLocaleString('en')} bytes`);
      await steps.drop([join(CASES, 'vb.dll')]);
    });

    test('crafted files leave the page alive', async () => {
      const crafted = join(folder, 'crafted');
      mkdirSync(crafted);
      execFileSync('python3', [CRAFTED, crafted, String(CRAFTED_BYTES)]);
      const files = readdirSync(crafted, { recursive: true }).map(name => join(crafted, name)).filter(file => statSync(file).isFile());
      assert.ok(files.length > 5);
      await steps.drop(files);
      const told = await browser.ask('[...document.querySelectorAll("#files button[aria-pressed]")].map(button => button.textContent)');
      assert.deepEqual(told.slice(-files.length).filter(text => !/^(accepted|refused): /.test(text)), []);
      await steps.choose('vb.dll');
      assert.equal(await steps.text('title'), 'accepted vb.dll');
    });

    test('a file that takes over ten seconds can be stopped, and the page is used meanwhile', async () => {
      await browser.ask('(() => { window.RealWorker = Worker; window.Worker = class { postMessage() {} terminate() { window.isEnded = true; } }; })()');
      await browser.drop([join(CASES, 'v2.dll')]);
      await steps.choose('vb.dll');
      assert.equal(await steps.text('title'), 'accepted vb.dll');
      await browser.until('document.querySelector("#files [aria-label=\'Stop v2.dll\']")');
      await browser.ask('document.querySelector("#files [aria-label=\'Stop v2.dll\']").click()');
      assert.equal(await browser.ask('isEnded && !document.querySelector("#files [aria-label$=\'v2.dll\']")'), true);
      await browser.ask('(() => { window.Worker = RealWorker; })()');
      await steps.drop([join(CASES, 'v2.dll')]);
      await steps.choose('v2.dll');
      assert.equal(await steps.text('title'), 'accepted v2.dll');
    });

    test('a table is sorted and filtered, and copied as it is shown', async () => {
      await steps.choose('vb.dll');
      await steps.showTab('headers');
      const all = await steps.copiedRows();
      await browser.ask('document.querySelector("#panel thead button").click()');
      assert.deepEqual((await steps.copiedRows()).map(({ field }) => field), all.map(({ field }) => field).sort());
      await browser.ask('(() => { const search = document.querySelector("#panel input"); search.value = "Image_Base"; search.dispatchEvent(new Event("input")); })()');
      assert.deepEqual(await steps.copiedRows(), all.filter(({ field }) => field === 'image_base'));
      assert.deepEqual(await steps.drawnCells(), await steps.copiedCells());
    });

    // vc.dll imports f from A.DLL, of which there is none at first, and then g from b.dll by way of A.dll
    // A.dll forwards f, which vc.dll imports from it, to b.dll
    test('images are mapped, one is moved, and what changed is marked', async () => {
      await browser.go('about:blank');
      await browser.go(url);
      for (const [name, file] of [['A.dll', 'va.dll'], ['b.dll', 'vb.dll'], ['vc.dll', 'vc.dll']]) {
        writeFileSync(join(folder, name), readFileSync(join(CASES, file)));
      }
      await steps.drop([join(folder, 'vc.dll')]);
      await steps.showTab('map');
      await browser.until('document.getElementById("space")');
      assert.match(await steps.text('panel'), /Imports that are bound to nothing/);
      await browser.ask('document.getElementById("known").click()');
      await browser.until('/fault 48/.test(document.querySelector("#panel [role=alert]").textContent)');
      await steps.drop(['A.dll', 'b.dll'].map(name => join(folder, name)));
      await steps.showTab('sections');
      await steps.showTab('map');
      await browser.until('document.querySelectorAll("#space .image").length === 3');
      const before = await steps.copiedRows();
      assert.ok(before.some(({ image, exporter }) => image === 'vc.dll' && exporter === 'b.dll'));
      assert.equal(await browser.ask('document.querySelectorAll("#panel tr.changed").length'), 0);
      const indexOf = name => browser.ask(`[...document.querySelectorAll(".map-images label")].findIndex(({ textContent }) => textContent.trim() === "${name}")`);
      const index = await indexOf('b.dll');
      await steps.rebase(index, '0x40000000');
      await browser.until('document.getElementById("space").textContent.includes("0x40000000")');
      assert.equal(await browser.ask('document.querySelectorAll("#space .moved").length'), 1);
      const after = await steps.copiedRows();
      const moved = 0x40000000 - Number((await browser.ask('document.querySelector("#space .moved").getAttribute("aria-label")')).match(/moved from (0x[0-9a-f]+)/)[1]);
      const expected = before.map(row => (row.exporter === 'b.dll' ? { ...row, value: `0x${(Number(row.value) + moved).toString(16)}`, before: row.value } : row));
      assert.deepEqual(after, expected);
      assert.equal(await browser.ask('document.querySelectorAll("#panel tr.changed").length'), expected.filter(row => row.before).length);
      await steps.rebase(index, '0x1234');
      await browser.until('/fault 44: base 0x1234: the base is not a multiple of/.test(document.querySelector("#panel [role=alert]").textContent)');
      assert.equal(await browser.ask(`document.getElementById("base-${index}").getAttribute("aria-invalid")`), 'true');
      // the move of another shows where the image stands, and no more the base that was refused
      await steps.rebase(await indexOf('A.dll'), '0x50000000');
      await browser.until('document.getElementById("space").textContent.includes("0x50000000")');
      assert.equal(await browser.ask(`document.getElementById("base-${index}").value`), '0x40000000');
      await steps.shot('map');
    });

    test('the address of the page leads to a place', async () => {
      await browser.go('about:blank');
      await browser.go(`${url}#vb.dll/rva/1010`);
      await steps.drop([join(CASES, 'vb.dll')]);
      await browser.until('document.getElementById("at").textContent.includes("1010")');
      assert.match(await steps.text('place-title'), /file 0x210, RVA 0x1010/);
      await browser.ask('location.hash = "#vb.dll/file/0/exports"');
      await browser.until('document.getElementById("place-title").textContent.includes("RVA 0x0")');
      assert.equal(await browser.ask('document.getElementById("tab-exports").getAttribute("aria-selected")'), 'true');
      await steps.showTab('headers');
      assert.equal(await browser.ask('location.hash'), '#vb.dll/file/0/headers');
      // a file that is chosen is in the address, and one that is chosen again is as it was left
      await steps.drop([join(CASES, 'v1.dll')]);
      await steps.choose('v1.dll');
      assert.equal(await browser.ask('location.hash'), '#v1.dll/file/0');
      await steps.choose('vb.dll');
      assert.equal(await browser.ask('location.hash'), '#vb.dll/file/0/headers');
    });

    test('a button of a tab takes a click that began before another file was read', async () => {
      await browser.ask('(() => { window.pressed = document.getElementById("tab-map"); })()');
      await steps.drop([join(CASES, 'v2.dll')]);
      assert.equal(await browser.ask('pressed === document.getElementById("tab-map") && pressed.textContent'), 'Map3');
    });

    test('real DLLs are shown as the program tells them, row by row', { ...needs(FOLDERS.length, 'libwine'), ...needs(PROGRAM, 'program') }, async () => {
      await browser.go('about:blank');
      await browser.go(url);
      const files = realFiles();
      assert.equal(files.length, DLLS);
      await steps.drop(files);
      for (const file of files) {
        const line = lineOf(file);
        await steps.choose(file);
        assert.equal(await steps.text('title'), `${line.accepted ? 'accepted' : 'refused'} ${basename(file)}`);
        for (const id of TABLES.filter(each => line[each]?.length || (line[each] && EMPTY.includes(each)))) {
          await steps.showTab(id);
          assert.deepEqual(await steps.copiedRows(), line[id].map(withoutRelocations), `${id} of ${file}`);
          const expected = await steps.copiedCells();
          for (const isToEnd of [false, true]) {
            await steps.scroll(isToEnd);
            const cells = await steps.drawnCells();
            assert.ok(cells.length === line[id].length || (cells.length >= 20 && cells.length < 100), `${id} of ${file}: ${cells.length} rows are drawn`);
            const rows = isToEnd ? expected.slice(expected.length - cells.length) : expected.slice(0, cells.length);
            assert.deepEqual(cells.map((row, index) => rows[index] && row), rows, `${id} of ${file}`);
          }
        }
      }
      await steps.showTab('imports');
      await steps.shot('real');
    });

    test('nothing is asked of the network, and nothing fails', async () => {
      const others = (await browser.requested()).filter(request => request.split('#')[0] !== url && !/^(blob|about):/.test(request));
      assert.deepEqual(others, []);
      assert.deepEqual(await browser.failures(), []);
    });
  });
}

describe('chromium, by itself', process.env.CHROMIUM ? {} : { skip: 'left out without chromium' }, () => {
  let browser;
  let steps;

  before(async () => {
    browser = await Chromium.open(process.env.CHROMIUM, url);
    steps = new Steps(browser);
    await steps.drop([join(CASES, 'vb.dll')]);
  });

  after(() => browser?.close());

  test('a folder that is dropped opens what is in it, and in the folders in it', async () => {
    const folder = mkdtempSync(join(tmpdir(), 'petool-page-'));
    mkdirSync(join(folder, 'in/deeper'), { recursive: true });
    for (const [name, place] of [['v1.dll', 'in'], ['v2.dll', 'in/deeper']]) {
      writeFileSync(join(folder, place, name), readFileSync(join(CASES, name)));
    }
    await browser.drop([join(folder, 'in')]);
    await browser.until('document.querySelectorAll("#files li").length === 3 && !document.querySelector("#files progress")');
    rmSync(folder, { recursive: true });
    await steps.choose('v2.dll');
    assert.equal(await steps.text('title'), 'accepted v2.dll');
    await steps.choose('vb.dll');
  });

  test('whatever can be operated has a name', async () => {
    const operable = await browser.operable();
    assert.ok(operable.length > 20);
    assert.deepEqual(operable.filter(({ name }) => !name), []);
  });

  test('the keyboard alone opens tabs and parts of the picture', async () => {
    await browser.ask('document.getElementById("tab-sections").focus()');
    await browser.key('ArrowRight');
    assert.equal(await browser.ask('document.activeElement.id'), 'tab-directories');
    assert.equal(await browser.ask('document.getElementById("tab-directories").getAttribute("aria-selected")'), 'true');
    await browser.ask('document.querySelector("#bars [tabindex=\'0\']").focus()');
    await browser.key('ArrowDown');
    await browser.key('Enter');
    await browser.until('document.getElementById("place-title").textContent.startsWith("file 0x200, RVA 0x1000: .edata")');
    await browser.key('ArrowRight');
    assert.match(await browser.ask('document.activeElement.getAttribute("aria-label")'), /^in memory at 0x1000, .*: \.edata$/);
    await browser.key('Enter');
    await browser.ask('document.getElementById("zoom-in").focus()');
    await browser.key('Enter');
    assert.equal(await browser.ask('document.getElementById("zoom-out").disabled'), false);
    await browser.ask('document.getElementById("zoom-out").focus()');
    await browser.key('Enter');
    assert.equal(await browser.ask('document.getElementById("zoom-out").disabled'), true);
    assert.equal(await browser.ask('document.activeElement.getAttribute("class").startsWith("part")'), true);
  });

  test('the arrow keys go from row to row, and Enter selects one', async () => {
    await steps.showTab('exports');
    const { rva } = (await steps.copiedRows())[1];
    await browser.ask('document.querySelector("#panel tbody tr[tabindex=\'0\']").focus()');
    await browser.key('ArrowDown');
    assert.equal(await browser.ask('document.activeElement.getAttribute("aria-rowindex")'), '3');
    await browser.key('Enter');
    await browser.until(`location.hash === "#vb.dll/rva/${rva.toString(16)}/exports"`);
    assert.equal(await browser.ask('document.activeElement.getAttribute("aria-selected")'), 'true');
  });

  test('words stand out from their ground, in a light and in a dark theme', async () => {
    for (const dark of [false, true]) {
      await browser.look({ dark });
      const faint = await browser.ask(`(() => {
        const numbers = colour => (/^rgba?/.test(colour) ? colour.match(/[\\d.]+/g).map(Number) : [0, 0, 0, 0]);
        const light = colour => numbers(colour).slice(0, 3).map(part => part / 255).map(part => (part <= 0.04045 ? part / 12.92 : ((part + 0.055) / 1.055) ** 2.4)).reduce((sum, part, index) => sum + part * [0.2126, 0.7152, 0.0722][index], 0);
        const ground = element => {
          const colour = getComputedStyle(element).backgroundColor;
          return (numbers(colour)[3] ?? 1) === 1 || !element.parentElement ? colour : ground(element.parentElement);
        };
        const shown = [...document.querySelectorAll('body *')].filter(element => element.checkVisibility() && !element.closest('svg, [disabled]') && [...element.childNodes].some(node => node.nodeType === 3 && node.data.trim()));
        return shown.map(element => {
          const [high, low] = [light(getComputedStyle(element).color), light(ground(element))].sort((a, b) => b - a);
          return { words: element.textContent.slice(0, 20), contrast: (high + 0.05) / (low + 0.05) };
        }).filter(({ contrast }) => !(contrast >= 4.5));
      })()`);
      assert.deepEqual(faint, [], dark ? 'dark' : 'light');
    }
    await browser.look({});
  });

  test('a drag over the picture enlarges a part of it', async () => {
    const box = await browser.ask('(({ left, top, width, height }) => ({ left, top, width, height }))(document.getElementById("bars").getBoundingClientRect())');
    const x = box.left + box.width / 2;
    await browser.mouse('mousePressed', x, box.top + box.height * 0.3);
    await browser.mouse('mouseMoved', x, box.top + box.height * 0.5);
    await browser.mouse('mouseReleased', x, box.top + box.height * 0.5);
    assert.equal(await browser.ask('document.getElementById("zoom-out").disabled'), false);
    await browser.ask('document.getElementById("zoom-out").click()');
    assert.equal(await browser.ask('document.getElementById("zoom-out").disabled'), true);
  });

  test('a window of 360 pixels, one at 200 percent and a dark one show all', async () => {
    for (const [name, look] of [['narrow', { width: 360, height: 800 }], ['twice', { width: 700, height: 500, scale: 2 }], ['dark', { dark: true }]]) {
      await browser.look(look);
      assert.ok(await browser.ask('document.scrollingElement.scrollWidth <= innerWidth'), name);
      await steps.shot(name);
    }
    await browser.look({});
  });

  test('neither the page nor what runs beside it may connect to anything', async () => {
    const connect = 'fetch("https://example.org/").then(() => "connected", error => error.message)';
    assert.match(await browser.ask(connect), /Failed to fetch/);
    const beside = await browser.ask(`new Promise(told => {
      const worker = new Worker(URL.createObjectURL(new Blob(['${connect}.then(postMessage)'])));
      worker.onmessage = ({ data }) => told(data);
    })`);
    assert.match(beside, /Failed to fetch/);
    browser.errors.length = 0;
  });

  test('the structure is that which assistive software expects', async () => {
    const wrong = await browser.ask(`(() => {
      const wrong = [];
      const demand = (holds, words) => holds || wrong.push(words);
      const all = selector => [...document.querySelectorAll(selector)];
      const isShown = element => element.checkVisibility();
      demand(document.documentElement.lang, 'the page has no language');
      demand(document.title, 'the page has no title');
      demand(all('main').length === 1 && all('h1').length === 1, 'there is not one main part with one heading above it');
      const ids = all('[id]').map(({ id }) => id);
      demand(new Set(ids).size === ids.length, 'an id is there twice');
      const levels = all('h1, h2, h3').filter(isShown).map(({ localName }) => Number(localName[1]));
      levels.reduce((before, level) => (demand(level <= before + 1, 'a level of headings is left out'), level), 0);
      for (const input of all('input, select').filter(isShown)) {
        demand(input.labels.length || input.getAttribute('aria-label'), 'a field has no label: ' + input.id);
      }
      for (const each of all('[aria-controls], [aria-labelledby], [aria-describedby]')) {
        for (const name of ['aria-controls', 'aria-labelledby', 'aria-describedby']) {
          (each.getAttribute(name) ?? '').split(' ').filter(Boolean).forEach(id => demand(document.getElementById(id), name + ' leads nowhere: ' + id));
        }
      }
      demand(all('[role=tab][aria-selected=true]').length === 1 && all('[role=tab][tabindex="0"]').length === 1, 'not one tab is chosen and reached');
      demand(all('[role=tablist] > :not([role=tab])').length === 0, 'a list of tabs has something else in it');
      demand(all('#bars .part[tabindex="0"]').length === 1, 'not one part of the picture is reached');
      for (const table of all('table').filter(isShown)) {
        demand(table.getAttribute('aria-label'), 'a table has no name');
        demand([...table.tHead.rows[0].cells].every(cell => cell.scope === 'col'), 'a column has no heading');
      }
      demand(all('[tabindex]').every(({ tabIndex }) => tabIndex <= 0), 'an order of its own for the key Tab');
      demand(all('button').every(button => button.textContent.trim() || button.getAttribute('aria-label')), 'a button has no name');
      return wrong;
    })()`);
    assert.deepEqual(wrong, []);
  });
});

assert.ok(existsSync(PAGE), 'PETOOL_PAGE names no page');
