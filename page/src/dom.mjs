// Elements. What comes from files is only ever set as text.

const SVG = 'http://www.w3.org/2000/svg';

/** @param {string} id */
export const byId = id => document.getElementById(id);

/**
 * An element with these properties and children.
 * @param {string} tag
 * @param {Record<string, unknown>} [properties] attributes, or functions for events
 * @param {...(Node | string)} children
 */
export function element(tag, properties = {}, ...children) {
  return filled(document.createElement(tag), properties, children);
}

/** The same for the elements of a picture. */
export function drawn(tag, properties = {}, ...children) {
  return filled(document.createElementNS(SVG, tag), properties, children);
}

function filled(made, properties, children) {
  for (const [name, value] of Object.entries(properties)) {
    if (typeof value === 'function') {
      made.addEventListener(name, value);
    } else if (name.startsWith('aria-')) {
      made.setAttribute(name, String(value));
    } else if (value !== undefined && value !== false) {
      made.setAttribute(name, value === true ? '' : String(value));
    }
  }
  made.append(...children);
  return made;
}

/** A number as people read it. @param {number} number */
export const count = number => number.toLocaleString('en');

/** A number of things, such as `1 row` or `12 rows`. @param {number} number @param {string} thing */
export const some = (number, thing) => `${count(number)} ${thing}${number === 1 ? '' : 's'}`;

/** A text, or its first letters if it has more than so many. @param {string} text @param {number} most */
export const cut = (text, most) => (text.length > most ? `${text.slice(0, most)}..` : text);

/** Makes Enter and the space bar do what a click does. @param {(event: Event) => void} act */
export const pressable = act => ({
  click: act,
  keydown: event => {
    if (event.key === 'Enter' || event.key === ' ') {
      event.preventDefault();
      act(event);
    }
  },
});

/** Puts a text where the user's next paste finds it, and tells so. @param {string} text @param {string} what it is @param {(words: string) => void} tell */
export async function copy(text, what, tell) {
  const isCopied = await navigator.clipboard?.writeText(text).then(() => true, () => false) || copiedBySelection(text);
  tell(isCopied ? `${what} copied.` : 'This browser does not let a page copy.');
}

/** Copies where a page may not write to the clipboard by itself, and says whether it did. The focus stays where it is. */
function copiedBySelection(text) {
  const focused = document.activeElement;
  const area = document.body.appendChild(element('textarea', { class: 'hidden-text', 'aria-label': 'What is copied' }));
  area.value = text;
  area.select();
  const isCopied = document.execCommand('copy');
  area.remove();
  focused?.focus({ preventScroll: true });
  return isCopied;
}
