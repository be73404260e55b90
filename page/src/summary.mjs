// What people ask for first of a file, in words.

import { hex } from '../../bindings/js/fault.mjs';
import { byId, count, element, some } from './dom.mjs';
import { nameOf, shownName } from './names.mjs';
import { isObjectFormat } from './parts.mjs';

/** @typedef {{ term: string, words: string, tab?: string, rva?: number }} Fact a term and its words, with a table or a place to which they lead */

const REPRODUCIBLE = 16;
// before 1990 there was no such file, and after the last second of 31 bits there is none
const FIRST_SECOND = Date.UTC(1990, 0) / 1000;
const LAST_SECOND = 2 ** 31 - 1;
const MOST_MODULES = 6;
const MOST_SIGNERS = 3;
// of a text that stands for itself
const MOST_LETTERS = 200;
const PROTECTIONS = { DYNAMIC_BASE: 'may stand at any address', HIGH_ENTROPY_VA: 'also above 4 GB', NX_COMPAT: 'data cannot run', GUARD_CF: 'checked calls', FORCE_INTEGRITY: 'must be signed' };

const CHANGED = 'the file was changed since';
const NO_DIGEST = 'not verified here, and no digest in it can be read';
const NOT_COMPARED = 'not verified here, and whether it fits is not told, since digests of its algorithm are not compared';
const NOT_TOLD = 'not verified here, and whether it fits is not told, since what a signature of this file signs is ambiguous';
const FITS = 'not verified here, but its digest fits';
/** What the page says of signatures, the worst first. */
const VERDICTS = [CHANGED, NO_DIGEST, NOT_COMPARED, NOT_TOLD, FITS];

/** The facts that are missing without the tables beyond the profile, and are worth to be missed. */
const MISSED = ['Product', 'Signed', 'Findings'];

const has = (headers, flag) => headers.characteristics_flags?.includes(flag);

/** What kind of file it is: `library for AMD64 (PE32+)` and the like. @param {import('./session.mjs').Session} session */
export function kindOf({ line, members, length }) {
  const { format, headers, kind } = line;
  const size = `${count(length)} bytes`;
  if (line.archive !== undefined) {
    return `${format ?? 'archive'} of ${some(members.length, 'member')}, ${size}`;
  }
  if (!headers) {
    return kind ? `by its first bytes this is ${kind}, ${size}` : size;
  }
  const machine = headers.machine_name ?? `the machine ${hex(headers.machine)}`;
  if (isObjectFormat(format)) {
    return `object for ${machine} (${format}), ${size}`;
  }
  const noun = has(headers, 'DLL') ? 'library' : 'program';
  return `${headers.subsystem_name === 'NATIVE' ? 'driver or native ' : ''}${noun} for ${machine} (${format}), ${size}`;
}

/** When a file was made, if its header has a date. */
function madeAt({ headers, debug }) {
  const { time_date_stamp: stamp } = headers;
  if (debug?.some(({ type }) => type === REPRODUCIBLE) || stamp < FIRST_SECOND || stamp > LAST_SECOND) {
    return 'the file does not say';
  }
  return new Date(stamp * 1000).toISOString().replace('T', ' ').replace('.000Z', ' UTC');
}

/** The first string of a key that says something. */
function stringOf(version, key) {
  for (const { strings } of version?.string_tables ?? []) {
    const found = strings.find(each => each.key === key && each.value);
    if (found) {
      return found.value;
    }
  }
  return undefined;
}

/** The first of these names, behind how many there are. @param {string[]} names @param {string} thing that they name @param {number} most */
function firstOf(names, thing, most) {
  const shown = names.slice(0, most).map(name => shownName(name) || 'a name of blanks');
  return `${names.length > most ? `${some(names.length, thing)}, the first of them ` : ''}${shown.join(', ')}`;
}

/** Whose a signature is: of its certificates the first that none of the others was issued by. @param {object[]} signers */
function ownerOf(signers) {
  const issued = new Map();
  for (const signer of signers) {
    const issuer = nameOf(signer, 'issuer');
    issued.set(issuer, (issued.get(issuer) ?? 0) + 1);
  }
  const isIssuer = signer => {
    const subject = nameOf(signer, 'subject');
    return (issued.get(subject) ?? 0) > Number(nameOf(signer, 'issuer') === subject);
  };
  const owner = signers.find(signer => !isIssuer(signer)) ?? signers[0];
  return (owner && nameOf(owner, 'subject')) || 'an unknown signer';
}

/** Whether an entry of the certificate table is a signature: of others it has neither a digest nor certificates. */
const isSignature = ({ digest_hex: digest, signers }) => digest !== undefined || signers?.length > 0;

/** What is known of a signature, whoever's it is. */
function verdictOf({ digest_hex: digest, digest_algorithm: algorithm, fits }) {
  if (fits !== undefined) {
    return fits ? FITS : CHANGED;
  }
  if (digest === undefined) {
    return NO_DIGEST;
  }
  return algorithm === undefined ? NOT_COMPARED : NOT_TOLD;
}

/** Whether the signatures are of this file, and whose. @param {object[]} [certificates] */
function signedBy(certificates = []) {
  const signatures = certificates.filter(isSignature);
  if (!signatures.length) {
    return certificates.length ? 'no: what its certificate table has is no signature that can be read' : 'no';
  }
  const owners = new Map(VERDICTS.map(verdict => [verdict, []]));
  for (const signature of signatures) {
    owners.get(verdictOf(signature)).push(ownerOf(signature.signers ?? []));
  }
  return [...owners].filter(([, names]) => names.length).map(([verdict, names]) => `${verdict}: by ${firstOf(names, 'signer', MOST_SIGNERS)}`).join('; ');
}

/** The modules that an image imports from. */
function modulesOf(imports) {
  const names = [...new Set(imports.map(row => nameOf(row, 'module')))];
  return `${count(imports.length)}, from ${firstOf(names, 'module', MOST_MODULES)}`;
}

/** The facts that its headers, exports and imports tell. @returns {Fact[]} */
function headerFacts(line) {
  const { headers, exports, imports } = line;
  const protections = Object.keys(PROTECTIONS).filter(flag => headers.dll_characteristics_flags?.includes(flag)).map(flag => PROTECTIONS[flag]);
  const facts = [
    { term: 'Made', words: madeAt(line), tab: 'headers' },
    { term: 'Base', words: `${headers.image_base}, ${count(headers.size_of_image)} bytes in memory` },
    { term: 'Protection', words: protections.join(', ') || 'none' },
  ];
  if (headers.address_of_entry_point) {
    facts.push({ term: 'Entry point', words: `RVA ${hex(headers.address_of_entry_point)}`, rva: headers.address_of_entry_point });
  }
  if (exports) {
    facts.push({ term: 'Exports', words: exports.length ? count(exports.length) : 'none', tab: 'exports' });
  }
  if (imports) {
    facts.push({ term: 'Imports', words: imports.length ? modulesOf(imports) : 'none', tab: 'imports' });
  }
  return facts;
}

/** The facts of the tables that come later. @returns {Fact[]} */
function beyondFacts({ version, certificates, pdb, clr, findings }) {
  const textOf = key => shownName(stringOf(version, key) ?? '', MOST_LETTERS);
  const facts = [
    { term: 'Product', words: textOf('ProductName'), tab: 'version' },
    { term: 'Version', words: version?.file_version?.join('.'), tab: 'version' },
    { term: 'Description', words: textOf('FileDescription'), tab: 'version' },
    { term: 'Company', words: textOf('CompanyName'), tab: 'version' },
    { term: 'Signed', words: signedBy(certificates), tab: certificates?.length ? 'signers' : undefined },
    { term: 'PDB file', words: pdb && shownName(nameOf(pdb, 'path'), MOST_LETTERS), tab: 'pdb' },
    { term: 'For .NET', words: clr && `runtime ${clr.major_runtime_version}.${clr.minor_runtime_version}`, tab: 'clr' },
    { term: 'Findings', words: findings?.length && some(findings.length, 'broken rule'), tab: 'findings' },
  ];
  return facts.filter(({ words }) => words);
}

/** What people ask for first. @param {import('./session.mjs').Session} session @returns {Fact[]} */
export function factsOf({ line, isImage, hasAll, missing }) {
  if (isImage) {
    const missed = missing ? MISSED.map(term => ({ term, words: 'not told' })) : [];
    return [...hasAll ? beyondFacts(line) : missed, ...headerFacts(line)];
  }
  if (isObjectFormat(line.format) && line.sections) {
    return [
      { term: 'Made', words: madeAt(line), tab: 'headers' },
      { term: 'Sections', words: count(line.sections.length), tab: 'sections' },
      { term: 'Symbols', words: count(line.symbols.length), tab: 'symbols' },
    ];
  }
  return [];
}

/**
 * Shows the facts of a file.
 * @param {import('./session.mjs').Session} session
 * @param {{ showTab: (id: string) => void, select: (target: { rva: number, name: string }) => void }} lead where a fact leads
 */
export function showFacts(session, { showTab, select }) {
  const tabs = session.tables.map(({ id }) => id);
  const rows = factsOf(session).map(({ term, words, tab, rva }) => {
    const act = rva !== undefined ? () => select({ rva, name: 'entry point' }) : tabs.includes(tab) && (() => showTab(tab));
    const told = act ? element('button', { type: 'button', class: 'link', click: act }, words) : words;
    return element('div', {}, element('dt', {}, term), element('dd', {}, told));
  });
  byId('facts').replaceChildren(...rows);
}
