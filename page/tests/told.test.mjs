// Tests of what the page says and how long it takes, with a stand-in for its worker, in the browser that CHROMIUM names.

import assert from 'node:assert/strict';
import { mkdtempSync, rmSync, writeFileSync } from 'node:fs';
import { tmpdir } from 'node:os';
import { join } from 'node:path';
import { after, before, describe, test } from 'node:test';
import { pathToFileURL } from 'node:url';
import { Chromium } from './chromium.mjs';
import { archiveLines, imageLine, objectLine } from './long_lists.mjs';
import { pageWithStandIn } from './stand_in.mjs';

const HEADERS = { machine: 0x14c, machine_name: 'I386', characteristics_flags: ['DLL'], image_base: '0x10000000', size_of_image: 0x3000, size_of_headers: 0x200, time_date_stamp: 0, address_of_entry_point: 0, pointer_to_symbol_table: 0, number_of_symbols: 0 };
const BLANKS = ' '.repeat(500);
// as many rows as a file of some hundred kilobytes has in one list: the page's own work is a second or two, and the product of two such
// numbers over ten
const MANY = 20_000;
const MOST_SECONDS = 8;
// the machine may have other work
const PATIENCE = 300_000;

/** The line of an image with these keys too. */
const lineOf = (more = {}) => ({ accepted: true, format: 'PE32', pe_offset: 64, headers: HEADERS, directories: [], sections: [], exports: [], imports: [], fixups: [], ...more });

describe('chromium', process.env.CHROMIUM ? {} : { skip: 'left out without chromium' }, () => {
  let folder;
  let browser;

  before(async () => {
    folder = mkdtempSync(join(tmpdir(), 'petool-told-'));
    browser = await Chromium.open(process.env.CHROMIUM, pathToFileURL(pageWithStandIn(folder)).href);
  });

  after(async () => {
    await browser?.close();
    rmSync(folder, { recursive: true, force: true });
  });

  /** Drops a file that says this, and chooses it. */
  async function show(name, told) {
    writeFileSync(join(folder, name), JSON.stringify(told));
    const there = await browser.ask('document.querySelectorAll("#files li").length');
    await browser.drop([join(folder, name)]);
    await browser.until(`document.querySelectorAll("#files li").length === ${there + 1} && !document.querySelector("#files progress")`, PATIENCE);
    await browser.ask('document.querySelector("#files li:last-child button").click()');
    await browser.until('!/being read/.test(document.getElementById("more").textContent)', PATIENCE);
  }

  const text = id => browser.ask(`document.getElementById(${JSON.stringify(id)}).textContent`);
  const factOf = term => browser.ask(`[...document.querySelectorAll("#facts div")].find(({ firstChild }) => firstChild.textContent === ${JSON.stringify(term)})?.lastChild.textContent`);

  test('that a file was changed since it was signed is seen, whoever signed it', async () => {
    const certificates = [{ offset: 1024, length: 96, type: 2, digest_algorithm: 'SHA-256', digest_hex: '00', fits: false, signers: [{ subject: `Example${BLANKS}` }] }];
    await show('changed.dll', { line: lineOf(), all: lineOf({ certificates }) });
    assert.equal(await factOf('Signed'), 'the file was changed since: by Example');
  });

  test('the name of a file stands behind what is said of it', async () => {
    const name = `a${' '.repeat(200)}accepted.dll`;
    const line = { ...lineOf(), accepted: false, fault: { number: 13, image: 0, place: { file: 312 }, subject: 'section header', rule: 'it is wrong' } };
    await show(name, { line, all: line });
    assert.equal(await text('title'), 'refused a accepted.dll');
    assert.equal(await browser.ask('document.title'), 'petool: a accepted.dll');
    assert.equal(await browser.ask('document.querySelector("#files li:last-child button").textContent'), 'refused: a accepted.dll');
    assert.match(await text('status'), /^refused in [\d,]+ ms and 1 MB of memory: a accepted\.dll$/);
    await browser.ask('document.querySelector("#files li:last-child button:last-child").click()');
    assert.equal(await text('status'), 'closed: a accepted.dll');
  });

  test('the name of a part stands behind its place', async () => {
    const section = { index: 0, name: `.text${BLANKS}in memory at 0x0`, virtual_address: 0x1000, virtual_size: 0x200, pointer_to_raw_data: 0x200, size_of_raw_data: 0x200, characteristics: 0x60000020 };
    await show('named.dll', { line: lineOf({ sections: [section] }), all: lineOf({ sections: [section] }) });
    const labels = await browser.ask('[...document.querySelectorAll("#bars .part")].map(part => part.getAttribute("aria-label"))');
    assert.ok(labels.includes('in memory at 0x1000, 512 bytes: .text in memory at 0x0'), labels.join('\n'));
    await browser.ask('[...document.querySelectorAll("#bars .part")].find(part => part.getAttribute("aria-label").startsWith("in memory at 0x1000")).dispatchEvent(new MouseEvent("click", { bubbles: true }))');
    assert.equal(await text('place-title'), 'file 0x200, RVA 0x1000: .text in memory at 0x0');
  });

  test('the names of images stand behind where they are mapped', async () => {
    const image = `m${' '.repeat(200)}at 0x0.dll`;
    await show(image, { line: lineOf(), all: lineOf(), map: { images: [{ name: 'x', base: 0, size: 0 }], bindings: [], unbound: [] } });
    await browser.ask('document.getElementById("tab-map").click()');
    const shown = await browser.ask('[...document.querySelectorAll(".map-images label")].map(label => label.textContent)');
    assert.ok(shown.includes(' m at 0x0.dll'), shown.join());
  });

  test('what is missing is said, if the tables beyond the profile cannot be had', async () => {
    await show('large.dll', { line: lineOf() });
    const why = 'there is not enough memory for this';
    assert.deepEqual(await Promise.all(['Product', 'Signed', 'Findings'].map(factOf)), ['not told', 'not told', 'not told']);
    assert.equal(await text('more'), `The other tables are missing: ${why}.`);
    assert.equal(await browser.ask('document.getElementById("more").checkVisibility()'), true);
    await browser.ask('document.getElementById("tab-json").click()');
    await browser.until('!/A moment/.test(document.getElementById("panel").textContent)');
    assert.match(await text('panel'), new RegExp(`^Copy allThis lacks the other tables: ${why}\\.\\{`));
    // another file has them
    await show('small.dll', { line: lineOf(), all: lineOf() });
    assert.deepEqual([await factOf('Signed'), await text('more')], ['no', '']);
  });

  /** How many seconds of a processor the page itself takes for steps, in which nothing can be clicked; its worker does not count. */
  async function secondsOf(steps) {
    await browser.send('Performance.enable', { timeDomain: 'threadTicks' });
    const taken = async () => (await browser.send('Performance.getMetrics')).metrics.find(({ name }) => name === 'TaskDuration').value;
    const before = await taken();
    await steps();
    return (await taken()) - before;
  }

  for (const [kind, linesOf] of [['image', imageLine], ['object', objectLine], ['archive', archiveLines]]) {
    test(`an ${kind} with ${MANY} rows in each list leaves the page alive, and all its tables can be shown`, async () => {
      const lines = linesOf(MANY);
      const told = kind === 'image' ? { line: lineOf(), all: lines[0] } : { line: lines.at(-1), members: lines.slice(0, -1) };
      const seconds = await secondsOf(async () => {
        await show(`many.${kind}`, { ...told, show: 'a page', at: 'a place' });
        assert.equal(await text('title'), `accepted many.${kind}`);
        const tabs = await browser.ask('[...document.querySelectorAll("#tabs button")].map(({ id }) => id)');
        assert.ok(tabs.length > 4, tabs.join());
        for (const tab of tabs.filter(id => id !== 'tab-map')) {
          await browser.ask(`document.getElementById("${tab}").click()`);
          await browser.ask('document.querySelector("#panel thead button")?.click()');
          await browser.ask('(() => { const search = document.querySelector("#panel input"); if (search) { search.value = "9"; search.dispatchEvent(new Event("input")); } })()');
          assert.ok(await browser.ask('document.querySelector("#panel tr[aria-rowindex], #panel pre") !== null'), tab);
        }
      });
      assert.ok(seconds > 0 && seconds < MOST_SECONDS, `${seconds} seconds`);
      await browser.ask('document.querySelector("#files li:last-child button:last-child").click()');
    });
  }

  test('rows that share a long text are filtered in a moment', async () => {
    const key = 't'.repeat(100_000);
    const strings = Array.from({ length: 100_000 }, (_, index) => ({ key: `k${index}`, value: 'v' }));
    const line = lineOf({ version: { rva: 4096, string_tables: [{ key, strings }] } });
    await show('strings.dll', { line: lineOf(), all: line });
    const seconds = await secondsOf(async () => {
      await browser.ask('document.getElementById("tab-version").click()');
      for (const [letters, rows] of [['TTTT', 100_000], ['k9999', 11], ['nowhere', 0]]) {
        await browser.ask(`(() => { const search = document.querySelector("#panel input"); search.value = "${letters}"; search.dispatchEvent(new Event("input")); })()`);
        assert.equal(await browser.ask('document.querySelector("#panel [role=status]").textContent'), `${rows.toLocaleString('en')} of 100,001 rows`);
      }
    });
    assert.ok(seconds > 0 && seconds < MOST_SECONDS, `${seconds} seconds`);
  });

  test('that a text goes on is said before it', async () => {
    const manifest = `${'m'.repeat(200_000)}\n.. and 3 letters more`;
    await show('manifest.dll', { line: lineOf(), all: lineOf({ manifest }) });
    await browser.ask('document.getElementById("tab-manifest").click()');
    await browser.until('!/A moment/.test(document.getElementById("panel").textContent)');
    assert.equal(await browser.ask('document.querySelector("#panel pre").textContent'), 'm'.repeat(200_000));
    assert.match(await text('panel'), /^Copy allThese are the first 200,000 letters; what is copied has all\.m/);
  });
});
