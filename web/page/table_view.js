/** A building as tables of nodes and ways. The text stays the one source: a row changes its line of it. */
import { html, table } from './dom.js';
import { MOST_PEOPLE, MOST_RATE } from './building.js';
import { nextName, rowsOf, withArc, withField, withNode, withSetting, withoutArc, withoutNode } from './rows.js';

/** @typedef {import('./rows.js').Rows} Rows */
/** @typedef {import('./rows.js').Row} Row */
/** @typedef {(change: (text: string) => string, isNewRow: boolean) => void} Takes takes a change of the text; the tables are drawn anew if rows come or go */

const KINDS = [['WP', 'room (WP)'], ['HA', 'hall (HA)'], ['SW', 'stair (SW)'], ['LO', 'lobby (LO)'], ['DS', 'exit (DS)']];
const MOST_ROWS = 400;

/**
 * A field for a number.
 * @param {string} label for a screen reader
 * @param {string} value
 * @param {number} least
 * @param {number} most
 * @param {(value: string) => void} change
 */
function numberField(label, value, least, most, change) {
  return html('input', { type: 'number', min: least, max: most, step: 1, value, 'aria-label': label, inputmode: 'numeric', input: (/** @type {Event} */ event) => change(/** @type {HTMLInputElement} */ (event.target).value.trim()) });
}

/**
 * A field of a row's line.
 * @param {Row} row
 * @param {number} at
 * @param {string} label
 * @param {number} least
 * @param {number} most
 * @param {Takes} takes
 */
function cell(row, at, label, least, most, takes) {
  return numberField(label, row.fields[at] ?? '', least, most, (value) => takes((text) => withField(text, row.line, at + 1, value), false));
}

/**
 * @param {string} label
 * @param {() => void} click
 */
function removeButton(label, click) {
  return html('button', { type: 'button', class: 'small', 'aria-label': label, click }, 'Remove');
}

/**
 * The table of nodes.
 * @param {Rows} rows
 * @param {Takes} takes
 */
function nodeTable(rows, takes) {
  const cells = rows.nodes.slice(0, MOST_ROWS).map((row) => {
    const [name = '?'] = row.fields, isExit = name.startsWith('DS');
    const capacity = isExit ? 'exit' : cell(row, 1, `Capacity of ${name}`, 0, MOST_PEOPLE, takes);
    const people = isExit ? '' : cell(row, 2, `People in ${name}`, 0, MOST_PEOPLE, takes);
    return [name, capacity, people, removeButton(`Remove ${name}`, () => takes((text) => withoutNode(text, name), true))];
  });
  return table('Nodes: rooms, halls, stairs, lobbies and exits', ['name', 'capacity', 'people at first', ''], cells);
}

/**
 * The table of ways.
 * @param {Rows} rows
 * @param {Takes} takes
 */
function arcTable(rows, takes) {
  const cells = rows.arcs.slice(0, MOST_ROWS).map((row) => {
    const [tail = '?', head = '?'] = row.fields, way = `${tail} to ${head}`;
    const travel = cell(row, 2, `Travel from ${way}`, 1, 600, takes), rate = cell(row, 3, `Rate from ${way}`, 0, MOST_RATE, takes);
    return [way, travel, rate, removeButton(`Remove ${way}`, () => takes((text) => withoutArc(text, tail, head), true))];
  });
  return table('Ways: each leads from one node to another', ['from and to', 'travel, in periods', 'rate, people a period', ''], cells);
}

/**
 * @param {string} id
 * @param {string} words
 * @param {HTMLElement} field
 */
function labelled(id, words, field) {
  field.id = id;
  return html('span', { class: 'field' }, html('label', { for: id }, words), field);
}

/**
 * A form that adds a node.
 * @param {Rows} rows
 * @param {Takes} takes
 */
function nodeForm(rows, takes) {
  const kind = html('select', {}, ...KINDS.map(([value, words]) => html('option', { value }, words)));
  const number = /** @param {number} least @param {number} most @param {number} value */ (least, most, value) => html('input', { type: 'number', min: least, max: most, step: 1, value, required: true, inputmode: 'numeric' });
  const floor = number(0, 999, 1), capacity = number(0, MOST_PEOPLE, 20), people = number(0, MOST_PEOPLE, 0);
  const add = /** @param {Event} event */ (event) => {
    event.preventDefault();
    const name = nextName(rows, kind.value, Number(floor.value));
    takes((text) => withNode(text, name, kind.value === 'DS' ? [] : [capacity.value, people.value]), true);
  };
  return html('form', { class: 'adder', submit: add }, labelled('new-kind', 'New', kind), labelled('new-floor', 'on floor', floor),
    labelled('new-capacity', 'capacity', capacity), labelled('new-people', 'people', people), html('button', {}, 'Add node'));
}

/**
 * A form that adds a way.
 * @param {Rows} rows
 * @param {Takes} takes
 */
function arcForm(rows, takes) {
  const names = rows.nodes.map(({ fields }) => fields[0] ?? '').slice(0, MOST_ROWS);
  const ends = /** @param {string[]} list */ (list) => html('select', { required: true }, ...list.map((name) => html('option', { value: name }, name)));
  const isExit = /** @param {string} name */ (name) => name.startsWith('DS'), rooms = names.filter((name) => !isExit(name));
  const tail = ends(rooms), head = ends([...names.filter(isExit), ...rooms]);
  tail.addEventListener('change', () => head.setCustomValidity(''));
  head.addEventListener('change', () => head.setCustomValidity(''));
  const travel = html('input', { type: 'number', min: 1, max: 600, step: 1, value: 1, required: true, inputmode: 'numeric' });
  const rate = html('input', { type: 'number', min: 0, max: MOST_RATE, step: 1, value: 4, required: true, inputmode: 'numeric' });
  const add = /** @param {Event} event */ (event) => {
    event.preventDefault();
    head.setCustomValidity(tail.value === head.value ? 'A way joins two different nodes.' : '');
    if (head.reportValidity()) takes((text) => withArc(text, [tail.value, head.value, travel.value, rate.value]), true);
  };
  return html('form', { class: 'adder', submit: add }, labelled('new-tail', 'New way from', tail), labelled('new-head', 'to', head),
    labelled('new-travel', 'travel', travel), labelled('new-rate', 'rate', rate), html('button', {}, 'Add way'));
}

/**
 * The period and the horizon.
 * @param {Rows} rows
 * @param {Takes} takes
 */
function settings(rows, takes) {
  const field = /** @param {string} word @param {string} label @param {number} least @param {number} most */ (word, label, least, most) => numberField(label, rows.settings[word] ?? '', least, most, (value) => takes((text) => withSetting(text, word, value), !(word in rows.settings)));
  return html('p', { class: 'adder' }, html('span', { class: 'field' }, 'Seconds of a period ', field('period', 'Seconds of a period', 1, 600)),
    html('span', { class: 'field' }, 'Periods to look ahead ', field('horizon', 'Periods to look ahead', 0, 1200)));
}

/**
 * The tables of a building's text, whose changes give another text.
 * @param {string} text
 * @param {Takes} takes
 * @returns {HTMLElement[]}
 */
export function buildingTables(text, takes) {
  const rows = rowsOf(text), left = Math.max(rows.nodes.length, rows.arcs.length) - MOST_ROWS;
  const more = left > 0 ? [html('p', { class: 'soft' }, `Only the first ${MOST_ROWS} rows of each are shown. The text has all.`)] : [];
  return [settings(rows, takes), nodeTable(rows, takes), nodeForm(rows, takes), arcTable(rows, takes), arcForm(rows, takes), ...more];
}
