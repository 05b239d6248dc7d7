/** Makes elements. A text becomes a text node and never markup, so no name or title of a building can be read as HTML. */

/** @typedef {Node | string | number | null | undefined | false} Child nothing is made of null and false */
/** @typedef {Record<string, string | number | boolean | ((event: any) => void) | null | undefined>} Attributes a function is a listener */

const SVG = 'http://www.w3.org/2000/svg';
const REPLACED = '\ufffd';

/**
 * @template {Element} E
 * @param {E} element
 * @param {Attributes} attributes
 * @param {Child[]} children
 */
function filled(element, attributes, children) {
  for (const [name, value] of Object.entries(attributes)) {
    if (typeof value === 'function') element.addEventListener(name, value);
    else if (value === true) element.setAttribute(name, '');
    else if (value !== false && value !== null && value !== undefined) element.setAttribute(name, String(value));
  }
  element.append(...nodesOf(children));
  return element;
}

/**
 * What children are as nodes and texts.
 * @param {Child[]} children
 * @returns {(Node | string)[]}
 */
function nodesOf(children) {
  return children.filter((child) => child !== null && child !== undefined && child !== false).map((child) => (child instanceof Node ? child : String(child)));
}

/**
 * Puts children in the place of those of an element.
 * @param {Element} element
 * @param {...Child} children
 */
export function fill(element, ...children) {
  element.replaceChildren(...nodesOf(children));
}

/**
 * An element of HTML.
 * @template {keyof HTMLElementTagNameMap} K
 * @param {K} tag
 * @param {Attributes} attributes
 * @param {...Child} children
 */
export function html(tag, attributes, ...children) {
  return filled(document.createElement(tag), attributes, children);
}

/**
 * An element of SVG.
 * @template {keyof SVGElementTagNameMap} K
 * @param {K} tag
 * @param {Attributes} attributes
 * @param {...Child} children
 */
export function svg(tag, attributes, ...children) {
  return filled(/** @type {SVGElementTagNameMap[K]} */ (document.createElementNS(SVG, tag)), attributes, children);
}

/**
 * The element with this id.
 * @param {string} id
 * @returns {HTMLElement}
 */
export function at(id) {
  const found = document.getElementById(id);
  if (!found) throw new Error(`the page has no element ${id}`);
  return found;
}

/**
 * A user's text without control characters and marks of direction.
 * @param {string} text
 */
export function plain(text) {
  return text.replace(/[\p{Cc}\p{Cs}\u200e\u200f\u2028-\u202e\u2066-\u2069\ufeff]/gu, REPLACED);
}

/**
 * A user's text, kept apart from the direction of the words around it.
 * @param {string} text
 */
export function quoted(text) {
  return html('bdi', {}, plain(text));
}

/**
 * A table. The first column is a heading of its row.
 * @param {string} caption
 * @param {string[]} heads
 * @param {Child[][]} rows
 * @param {Record<string, string>} [attributes]
 */
export function table(caption, heads, rows, attributes = {}) {
  const head = html('tr', {}, ...heads.map((it) => html('th', { scope: 'col' }, it)));
  const body = rows.map(([first, ...rest]) => html('tr', {}, html('th', { scope: 'row' }, first), ...rest.map((it) => html('td', {}, it))));
  return html('table', attributes, html('caption', {}, caption), html('thead', {}, head), html('tbody', {}, ...body));
}

/** The grounds of what the page says. */
export const GROUNDS = {
  checked: 'checked',
  cuts: 'by the cuts',
  printed: 'printed plan',
  page: 'page',
};

/**
 * A ground as a mark.
 * @param {keyof typeof GROUNDS} ground
 */
export function mark(ground) {
  return html('span', { class: `mark ${ground}` }, GROUNDS[ground]);
}
