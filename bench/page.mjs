#!/usr/bin/env node
// Measures the page in headless Chromium beside the program: page.mjs PAGE PROGRAM CHROMIUM FILE [TURNS]. FILE is to be large, as
// mshtml.dll of Wine. It prints medians of TURNS turns, 7 if none is given, in each of which both are measured:
//
//   json, parse   what the program takes for the file's line of JSON, and JSON.parse of node for that
//   picture       what the page takes from the drop of the file to its picture, which the headers decide while the rest is read; the
//                 goal is 1.5 times json, and parse
//   whole         what it takes until the file is read, checked and shown
//   memory        what the file takes in the worker, and what the browser's processes have more than before it was dropped
//   frames        how long the frames take while the file's table with the most rows is scrolled, which is to have 50,000

import { execFileSync } from 'node:child_process';
import { readdirSync, readFileSync, statSync } from 'node:fs';
import { resolve } from 'node:path';
import { pathToFileURL } from 'node:url';
import { Chromium } from '../page/tests/chromium.mjs';

const [page, program, chromium, file, turns = '7'] = process.argv.slice(2);
if (!file) {
  console.error('usage: page.mjs PAGE PROGRAM CHROMIUM FILE [TURNS]');
  process.exit(2);
}
const ROWS = 50_000;
const FRAMES = 300;
const MB = 2 ** 20;
const url = pathToFileURL(resolve(page)).href;
const median = numbers => numbers.toSorted((a, b) => a - b)[Math.floor(numbers.length / 2)];
const shown = number => number.toFixed(1);

/** What the program takes for a line, and JSON.parse for it, in milliseconds. */
function ofProgram() {
  const began = performance.now();
  const text = execFileSync(program, ['json', resolve(file)], { maxBuffer: 2 ** 30 });
  const told = performance.now();
  JSON.parse(text.toString());
  return { json: told - began, parse: performance.now() - told };
}

/** The memory of a process and of those that it started which no other process has, in bytes. */
function memoryOf(process) {
  const parents = readdirSync('/proc').filter(name => /^\d+$/.test(name)).flatMap(name => {
    try {
      return [[Number(name), Number(readFileSync(`/proc/${name}/stat`, 'utf8').replace(/^.*\) \S+ /s, '').split(' ')[0])]];
    } catch {
      return [];
    }
  });
  const family = [process];
  for (let index = 0; index < family.length; index += 1) {
    family.push(...parents.filter(([, parent]) => parent === family[index]).map(([child]) => child));
  }
  return family.reduce((sum, each) => sum + ownMemoryOf(each), 0);
}

/** The memory of one process which no other has, in bytes; of one that has ended meanwhile none. */
function ownMemoryOf(process) {
  try {
    const [, clean, dirty] = /^Private_Clean: +(\d+) kB\nPrivate_Dirty: +(\d+) kB$/m.exec(readFileSync(`/proc/${process}/smaps_rollup`, 'utf8'));
    return (Number(clean) + Number(dirty)) * 1024;
  } catch {
    return 0;
  }
}

/** What the page takes from the drop to the picture, and the memory that the browser then has more. */
async function ofPage(browser) {
  await browser.go('about:blank').catch(() => {});
  await browser.go(url);
  await browser.ask(`(() => {
    addEventListener('drop', () => { window.began = performance.now(); }, true);
    new MutationObserver(() => requestAnimationFrame(() => {
      window.drawn ??= performance.now();
      if (document.querySelector('#title .accepted')) window.whole ??= performance.now();
    })).observe(document.getElementById('bars'), { childList: true });
  })()`);
  const before = memoryOf(browser.process);
  await browser.drop([file]);
  await browser.until('window.whole');
  const more = memoryOf(browser.process) - before;
  return { ...await browser.ask('({ picture: window.drawn - window.began, whole: window.whole - window.began })'), more };
}

/** The table with the most rows, and how long the frames take while it is scrolled, in order. */
async function ofScrolling(browser) {
  const tabs = await browser.ask(`[...document.querySelectorAll('#tabs button')].map(({ id, textContent }) => ({ id, rows: Number(/[\\d,]+$/.exec(textContent)?.[0].replaceAll(',', '') ?? 0) }))`);
  const { id, rows } = tabs.toSorted((a, b) => b.rows - a.rows)[0];
  await browser.ask(`document.getElementById('${id}').click()`);
  // a frame begins with the event of the scrolling, and a message that is sent in it comes when it is drawn
  const frames = await browser.ask(`(async () => {
    const rows = document.querySelector('#panel .rows');
    const channel = new MessageChannel();
    const spent = [];
    for (let frame = 0; frame < ${FRAMES}; frame += 1) {
      rows.scrollTop += 997;
      const began = await new Promise(requestAnimationFrame);
      await new Promise(done => {
        channel.port1.onmessage = done;
        channel.port2.postMessage(0);
      });
      spent.push(performance.now() - began);
    }
    return spent.sort((a, b) => a - b);
  })()`);
  return { rows, frames };
}

const browser = await Chromium.open(chromium, url);
const measured = [];
for (let turn = 0; turn < Number(turns); turn += 1) {
  measured.push({ ...ofProgram(), ...await ofPage(browser) });
}
const [json, parse, picture, whole, more] = ['json', 'parse', 'picture', 'whole', 'more'].map(key => median(measured.map(each => each[key])));
console.log(`json ${shown(json)} ms, parse ${shown(parse)} ms`);
console.log(`picture ${shown(picture)} ms, whole ${shown(whole)} ms; the goal is ${shown(1.5 * json + parse)} ms`);
const told = await browser.ask('document.getElementById("status").textContent');
console.log(`memory: the worker ${/and ([\d,]+ MB)/.exec(told)?.[1]}, the browser ${shown(more / MB)} MB more; the file has ${shown(statSync(file).size / MB)} MB`);
await browser.until('document.getElementById("tab-headers")');
const { rows, frames } = await ofScrolling(browser);
console.log(`frames of ${rows} rows${rows < ROWS ? ` (under ${ROWS})` : ''}: median ${shown(median(frames))} ms, 95 % under ${shown(frames[Math.floor(FRAMES * 0.95)])} ms, longest ${shown(frames.at(-1))} ms`);
await browser.close();
