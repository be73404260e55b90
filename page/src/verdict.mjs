// What the page says of a refused file: the rule that it breaks, and where.

import { explain, hex, placeText } from '../../bindings/js/fault.mjs';
import { byId, count, element } from './dom.mjs';

/** A number that a rule compares, in words. */
const valueText = ([name, value]) => `${name.replaceAll('_', ' ')} ${typeof value === 'number' ? `${count(value)} (${hex(value)})` : value}`;

/** The paragraphs about a fault. */
function paragraphsOf({ number, subject, place, rule, values }, kind) {
  const words = explain(number);
  return [
    `Refused by fault ${number}: ${subject} ${placeText(place)}: ${rule}.`,
    Object.entries(values ?? {}).map(valueText).join(', '),
    words?.explained,
    words?.metBy && `Typical case: ${words.metBy}.`,
    kind && `By its first bytes it is this instead: ${kind}.`,
  ].filter(Boolean);
}

/**
 * Shows why a file is refused, or was not read; of an accepted file nothing.
 * @param {import('./session.mjs').Session} session
 * @param {(target: import('./place.mjs').Target) => void} select
 */
export function showFault({ line: { fault, kind }, state, message }, select) {
  const box = byId('fault');
  box.hidden = state !== 'refused' && state !== 'failed';
  if (state !== 'refused') {
    box.replaceChildren(...(state === 'failed' ? [element('p', {}, message)] : []));
    return;
  }
  const target = targetOf(fault);
  const button = target && element('p', {}, element('button', { type: 'button', click: () => select(target) }, 'Show the place'));
  box.replaceChildren(...paragraphsOf(fault, kind).map(text => element('p', {}, text)), ...(button ? [button] : []));
}

/** The place of a fault, if it is one of the file. @param {object | undefined} fault */
export function targetOf(fault) {
  const { rva, file: offset } = fault?.place ?? {};
  return rva === undefined && offset === undefined ? null : { rva, offset, name: fault.subject };
}
