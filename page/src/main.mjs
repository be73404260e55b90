// The page: the files that were dropped, and what is shown of the chosen one.

import { hex, learnRules } from '../../bindings/js/fault.mjs';
import { byId, count, element } from './dom.mjs';
import { listenForFiles } from './dropping.mjs';
import { FileList, STATES } from './files.mjs';
import { addressed, addressOf } from './fragment.mjs';
import { Helper } from './helper.mjs';
import { MapView } from './mapping.mjs';
import { fileOf, memberAt } from './members.mjs';
import { nameOf, shownName } from './names.mjs';
import { offsetOf, partsAt, rvaOf } from './parts.mjs';
import { Picture } from './picture.mjs';
import { unpacked } from './packed.mjs';
import { PlacePanel } from './place.mjs';
import { Rows } from './rows.mjs';
import { Session } from './session.mjs';
import { kindOf, showFacts } from './summary.mjs';
import { Tabs } from './tabs.mjs';
import { TextView } from './texts.mjs';
import { showFault, targetOf } from './verdict.mjs';

/** @type {Session[]} */
const sessions = [];
/** @type {Session | null} */
let current = null;
/** the place that is selected @type {import('./place.mjs').Target | null} */
let selected = null;
/** the place that was selected when the file was shown @type {import('./place.mjs').Target | null} */
let begun = null;
/** the tab that was chosen, and not offered by itself */
let asked = '';
/** @type {MapView | null} */
let map = null;
// of more files those that were not chosen yet keep no long lists
const MOST_WHOLE = 32;
const MOST_NAME = 200;
const ADDRESS_MILLISECONDS = 1000;
/** after which the address is written that could not be */
let addressTimer;

const files = new FileList(session => {
  choose(session);
  tellAddress();
  byId('title').focus();
}, close);
const place = new PlacePanel(target => select(target));
const picture = new Picture((part, side, at) => {
  const name = at === part[side].at ? part.name : `${hex(at - part[side].at)} into ${part.name}`;
  const size = at === part[side].at ? part[side].size : 1;
  select({ ...(side === 'file' ? { offset: at } : { rva: at }), size, name });
});
const tabs = new Tabs(showTab, id => {
  asked = id;
  tellAddress();
});

const tell = words => {
  byId('status').textContent = words;
};

/** Words about a file, and which it is. @param {string} words @param {Session} session */
const about = (words, { name }) => `${words}: ${shownName(name)}`;

// ---- files

/** Opens files, and shows the first of them that is read. @param {File[]} blobs */
function open(blobs) {
  for (const blob of blobs) {
    const session = new Session(blob);
    sessions.push(session);
    files.add(session);
    session.open(() => changed(session));
  }
  if (blobs.length) {
    tell(`${count(blobs.length)} ${blobs.length === 1 ? 'file is' : 'files are'} being read ..`);
  }
}

/** A file was read, or more of it. @param {Session} session */
function changed(session) {
  files.update(session);
  if (session.isBegun && !current) {
    choose(session);
  }
  if (session.isPending || session.state === 'closed') {
    return;
  }
  tellState(session);
  if (session === current) {
    const kept = begun === selected ? null : selected;
    choose(session);
    if (kept) {
      select(kept);
    }
  } else if (!current || (addressed()?.name === session.name && current.name !== session.name)) {
    choose(session);
  } else {
    if (sessions.length > MOST_WHOLE) {
      session.shorten();
    }
    offerTabs();
  }
}

/** Says how a file is: the chosen one, or the last that is read. @param {Session} session */
function tellState(session) {
  if (current && session !== current && sessions.some(({ isPending }) => isPending)) {
    return;
  }
  const { state, milliseconds, memoryBytes, message } = session;
  const more = memoryBytes ? ` in ${count(Math.ceil(milliseconds))} ms and ${count(Math.ceil(memoryBytes / 2 ** 20))} MB of memory` : message && ` (${message})`;
  tell(about(`${STATES[state]}${more}`, session));
}

/** @param {Session} session */
function close(session) {
  session.close();
  sessions.splice(sessions.indexOf(session), 1);
  files.remove(session);
  tell(about('closed', session));
  if (current === session) {
    choose(sessions.find(({ isPending }) => !isPending) ?? null);
  }
}

// ---- the chosen file

/** Shows a file, at the place and with the table that the address of the page asks for, if it names the file, or else at those that it was left at. @param {Session | null} session */
function choose(session) {
  const address = addressed();
  if (current && current !== session) {
    current.left = { place: selected, tab: asked };
  }
  current = session;
  map?.stop();
  map = null;
  asked = '';
  tabs.chosen = '';
  selected = null;
  files.mark(session);
  document.title = session ? about('petool', session) : 'petool';
  byId('main').hidden = !session;
  if (!session) {
    return;
  }
  showHead(session);
  byId('picture').hidden = byId('place').hidden = !session.length || session.state === 'failed';
  byId('columns').classList.toggle('no-picture', byId('picture').hidden);
  picture.show(session, session.line.fault?.place ?? null);
  showFault(session, select);
  const wanted = address?.name === session.name ? address : session.left;
  asked = wanted?.tab ?? '';
  offerTabs();
  if (!byId('place').hidden) {
    showPlace(wanted?.place ?? targetOf(session.line.fault) ?? { offset: 0, name: 'the beginning' });
    begun = selected;
  }
  sayOfTables('');
  if (session.isImage && !session.isPending) {
    addTables(session);
  }
}

/** Shows what a file is called, whether it is accepted, what kind it is, and what people ask for first. @param {Session} session */
function showHead(session) {
  const { name, state } = session;
  byId('title').replaceChildren(element('span', { class: `badge ${state}` }, STATES[state]), ` ${shownName(name, MOST_NAME)}`);
  byId('kind').textContent = kindOf(session);
  showFacts(session, { showTab: id => tabs.take(id), select });
}

/** Says of the tables beyond the profile that they are not there, and why. @param {string} words */
function sayOfTables(words) {
  byId('more').hidden = !words;
  byId('more').textContent = words;
}

/** The tables beyond the profile, which take longer. @param {Session} session */
async function addTables(session) {
  sayOfTables(session.hasAll ? '' : 'The other tables are being read ..');
  await session.addAll().catch(() => {});
  if (session === current) {
    sayOfTables(session.missing && `The other tables are missing: ${session.missing}.`);
    showHead(session);
    offerTabs();
    offerTable();
  }
}

// ---- tables

const TEXTS = { manifest: 'Manifest', page: 'Report', json: 'JSON' };

/** The texts that a file has. @param {Session} session */
function textsOf({ line, state }) {
  const ids = state === 'accepted' || state === 'refused' ? Object.keys(TEXTS) : [];
  return ids.filter(id => id !== 'manifest' || nameOf(line, 'manifest'));
}

/** The images that a map may have. */
const mappable = () => sessions.filter(({ isImage, state }) => isImage && state === 'accepted');

function offerTabs() {
  const images = mappable();
  tabs.offer([
    ...current.tables.map(({ id, title, rows }) => ({ id, title, count: rows.length })),
    ...textsOf(current).map(id => ({ id, title: TEXTS[id] })),
    ...(images.length ? [{ id: 'map', title: 'Map', count: images.length }] : []),
  ], asked);
}

/** @param {string} id */
function showTab(id) {
  const panel = byId('panel');
  map?.stop();
  map = null;
  if (id === 'map') {
    map = new MapView(mappable(), current, tell);
    panel.replaceChildren(map.node);
    map.map();
    return;
  }
  if (id in TEXTS) {
    panel.replaceChildren(new TextView(current, id, TEXTS[id], tell).node);
    return;
  }
  const table = current.tables.find(each => each.id === id);
  const choose = table.place && (row => {
    const target = table.place(row);
    if (target) {
      select(target);
    } else {
      tell('This row has no place in the file.');
    }
  });
  const rows = new Rows(table.rows, { label: table.title, tell, choose, shows: table.shows, hides: table.hides });
  panel.replaceChildren(element('p', { class: 'hint' }, table.about), rows.node);
}

// ---- places

/** Selects a place of the chosen file, which the address of the page then names. @param {import('./place.mjs').Target} target */
function select(target) {
  showPlace(target);
  tellAddress();
}

function tellAddress() {
  clearTimeout(addressTimer);
  if (!current) {
    return;
  }
  try {
    history.replaceState(null, '', addressOf(current.name, selected, asked));
  } catch {
    // browsers bound how often a page may do so
    addressTimer = setTimeout(tellAddress, ADDRESS_MILLISECONDS);
  }
}

/** Shows a place of the chosen file: its bytes, what stands there, and the table that lies there. */
function showPlace(target) {
  selected = target;
  picture.select(target);
  place.show(current, { ...target, name: target.name ?? partName(target) });
  offerTable();
}

/** Both forms of a place, as far as it has them. */
function bothOf({ rva, offset }) {
  const { parts } = current;
  return { rva: rva ?? rvaOf(parts, offset), offset: offset ?? offsetOf(parts, rva) };
}

/** What part of the file a place is in. */
const partName = target => partsAt(current.parts, bothOf(target)).part?.name;

/** Offers the table that lies at the selected place, and the member of an archive that has it. */
function offerTable() {
  const both = selected && bothOf(selected);
  const { part, table } = both ? partsAt(current.parts, both) : {};
  const found = current.tables.find(({ id }) => id === table?.table) ?? current.tables.find(({ id }) => id === part?.table);
  const button = byId('place-table');
  button.hidden = !found;
  button.textContent = `Show the table: ${found?.title}`;
  button.onclick = () => tabs.take(found.id);
  const member = both && memberAt(current, both.offset);
  byId('place-member').hidden = !member;
  byId('place-member').onclick = () => openMember(current, member);
}

/** @param {Session} session @param {object} member */
async function openMember(session, member) {
  try {
    const file = await fileOf(session, member);
    history.replaceState(null, '', addressOf(file.name, null, ''));
    open([file]);
  } catch (error) {
    tell(about(`the member cannot be read: ${error.message}`, session));
  }
}

addEventListener('hashchange', () => {
  const address = addressed();
  const named = sessions.filter(({ name, isPending }) => name === address?.name && !isPending);
  // several files may have the name
  const session = named.includes(current) ? current : named[0];
  if (!session) {
    return;
  }
  if (session !== current) {
    choose(session);
    return;
  }
  if (address.place) {
    showPlace(address.place);
  }
  if (address.tab) {
    tabs.take(address.tab);
  }
});

listenForFiles(open, tell);
Helper.prepare();
unpacked('faults').then(bytes => learnRules(JSON.parse(new TextDecoder().decode(bytes))));
if (addressed()) {
  tell(`To go where the address of this page leads, open this file: ${shownName(addressed().name)}`);
}
