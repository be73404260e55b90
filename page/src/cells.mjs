// What the cells of tables show, in what order rows are, and their forms as text.

import { hex } from '../../bindings/js/fault.mjs';

// numbers that people read in hexadecimal digits
const IN_HEX = /rva|slot|address|size|pointer|offset|characteristics$|^base|magic|^machine$|check_sum|value|unwind|begin|end|place/;

export const isNumber = value => typeof value === 'number' || typeof value === 'bigint';

/** What a cell shows. @param {string} key @param {unknown} value */
export function cellText(key, value) {
  if (value === undefined || value === null) {
    return '';
  }
  if (typeof value === 'number') {
    return IN_HEX.test(key) ? hex(value) : String(value);
  }
  if (typeof value === 'bigint') {
    return hex(value);
  }
  if (Array.isArray(value)) {
    return value.map(each => (typeof each === 'object' ? JSON.stringify(each) : String(each))).join(' ');
  }
  if (typeof value === 'object') {
    const { module, name, ...others } = value;
    // names stand last, since they may look like what else there is
    return [...Object.entries(others).map(([part, each]) => `${part} ${cellText(part, each)}`), module, name].filter(part => part !== undefined).join(' ');
  }
  return String(value);
}

/** The columns of rows: their keys, in the order in which they come. @param {object[]} rows */
export function columnsOf(rows) {
  const keys = new Set();
  for (const row of rows) {
    for (const key in row) {
      keys.add(key);
    }
  }
  return [...keys];
}

/** What a value is sorted by: numbers by their size, 64-bit ones without loss, and what else there is by its letters. @param {unknown} value */
function orderOf(value) {
  if (isNumber(value)) {
    return value;
  }
  return typeof value === 'string' && /^0x[0-9a-f]{1,16}$/.test(value) ? BigInt(value) : cellText('', value);
}

/** Numbers come before letters. */
function compared(a, b) {
  if (isNumber(a) !== isNumber(b)) {
    return isNumber(a) ? -1 : 1;
  }
  return a < b ? -1 : Number(a > b);
}

/** The rows by a column. @param {object[]} rows @param {{ key: string, way: number }} order */
export function sorted(rows, { key, way }) {
  const keyed = rows.map(row => ({ row, by: orderOf(row[key]) }));
  return keyed.sort((a, b) => way * compared(a.by, b.by)).map(({ row }) => row);
}

// a spreadsheet takes what begins so for a formula, which a name of a hostile file may be
const FORMULA = /^[=+\-@\t\r]/;

/** A value of a file of comma-separated values, which a spreadsheet shows and does not run. @param {string} text */
function quotedValue(text) {
  const shown = FORMULA.test(text) && !/^-\d+$/.test(text) ? `'${text}` : text;
  return shown !== text || /[",\n\r]/.test(text) ? `"${shown.replaceAll('"', '""')}"` : text;
}

/** The rows as comma-separated values, with the names of the columns. @param {(key: string, row: object) => string} textOf a cell */
export function asCsv(rows, columns, textOf) {
  const lines = rows.map(row => columns.map(key => quotedValue(textOf(key, row))).join(','));
  return [columns.map(quotedValue).join(','), ...lines, ''].join('\r\n');
}

export const asJson = rows => JSON.stringify(rows, (_, value) => (typeof value === 'bigint' ? hex(value) : value), 1);
