/** Changes of a building: buttons for a way, a room or an exit, and what each change came to. */
import { html, mark, table } from './dom.js';
import { MOST_PEOPLE, MOST_RATE, wayOf } from './building.js';
import { isShut } from './edits.js';
import { measuresOf } from './measures.js';
import { count, seconds, spanWords, whenWords } from './times.js';

/** @typedef {import('./building.js').Building} Building */
/** @typedef {import('./building.js').Node} Node */
/** @typedef {import('./building.js').Arc} Arc */
/** @typedef {import('./desk.js').Answer} Answer */
/** @typedef {import('./edits.js').Edit} Edit */
/** @typedef {(edit: Edit) => void} Makes */

/**
 * A button that makes an edit.
 * @param {string} words
 * @param {Makes} makes
 * @param {Edit} edit
 */
function button(words, makes, edit) {
  return html('button', { type: 'button', click: () => makes(edit) }, words);
}

/**
 * A number with a button that sets it.
 * @param {string} id
 * @param {string} words
 * @param {number} value
 * @param {number} least
 * @param {number} most
 * @param {(value: number) => void} set
 */
function setter(id, words, value, least, most, set) {
  const input = html('input', { id, type: 'number', min: least, max: most, step: 1, value, required: true, inputmode: 'numeric' });
  const send = /** @param {Event} event */ (event) => {
    event.preventDefault();
    set(Number(input.value));
  };
  return html('form', { class: 'setter', submit: send }, html('label', { for: id }, words), input, html('button', {}, 'Set'));
}

/**
 * The moment that so many seconds are, rounded to the nearest.
 * @param {Building} building
 * @param {string} value
 */
function momentOf(building, value) {
  return Math.round(Number(value) / building.period);
}

/**
 * A time in which a way is closed.
 * @param {Building} building
 * @param {Arc} arc
 * @param {Makes} makes
 */
function closing(building, arc, makes) {
  const field = /** @param {string} id @param {string} words @param {number} value */ (id, words, value) => {
    const input = html('input', { id, type: 'number', min: 0, max: 1201 * building.period, step: building.period, value, required: true, inputmode: 'numeric' });
    return { input, label: html('label', { for: id }, words) };
  };
  const from = field('closed-from', 'Closed from second', 0), until = field('closed-until', 'until', 12 * building.period);
  const send = /** @param {Event} event */ (event) => {
    event.preventDefault();
    makes({ word: 'window', names: [arc.tail, arc.head], numbers: [momentOf(building, from.input.value), momentOf(building, until.input.value)] });
  };
  return html('form', { class: 'setter', submit: send }, from.label, from.input, until.label, until.input, html('button', {}, 'Close for a time'));
}

/**
 * The changes of a way.
 * @param {Building} building
 * @param {Arc} arc
 * @param {Makes} makes
 */
function wayButtons(building, arc, makes) {
  const names = [arc.tail, arc.head];
  const open = arc.windows.map(({ first, until }) => button(`No longer close it from ${seconds(building, first)} to ${seconds(building, until)}`, makes, { word: 'unwindow', names, numbers: [first, until] }));
  return [
    button(arc.isShut ? 'Open this way' : 'Close this way', makes, { word: arc.isShut ? 'reopen' : 'shut', names, numbers: [] }),
    setter('rate', 'Rate: people a period', arc.rate, 0, MOST_RATE, (n) => makes({ word: 'rate', names, numbers: [n] })),
    closing(building, arc, makes), ...open,
  ];
}

/**
 * The changes of a node.
 * @param {Node} node
 * @param {Makes} makes
 */
function nodeButtons(node, makes) {
  const names = [node.name];
  if (node.isExit) return [button(node.isShut ? 'Open this exit' : 'Close this exit', makes, { word: node.isShut ? 'openexit' : 'shutexit', names, numbers: [] })];
  /** @param {number} n */
  const people = (n) => n !== node.start && makes(n > node.start ? { word: 'enter', names, numbers: [n - node.start] } : { word: 'leave', names, numbers: [node.start - n] });
  return [
    setter('people', 'People in it at first', node.start, 0, MOST_PEOPLE, people),
    setter('capacity', 'Capacity', node.capacity, 0, MOST_PEOPLE, (n) => makes({ word: 'room', names, numbers: [n] })),
  ];
}

/**
 * The buttons for what is chosen: a node, or the two ends of a way.
 * @param {Building} building
 * @param {string[]} names
 * @param {Makes} makes
 * @returns {HTMLElement[]}
 */
export function changeButtons(building, names, makes) {
  const node = building.nodes.get(names[0]), arc = building.arcs.get(wayOf(names[0], names[1]));
  if (names.length > 1) return arc ? wayButtons(building, arc, makes) : [];
  return node ? nodeButtons(node, makes) : [];
}

/**
 * All that can be chosen: exits, ways and rooms.
 * @param {Building} building
 */
export function choices(building) {
  const nodes = [...building.nodes.values()], option = /** @param {string} value @param {string} words */ (value, words) => html('option', { value }, words);
  const exits = nodes.filter((node) => node.isExit).map((node) => option(node.name, `${node.name}${node.isShut ? ' (closed)' : ''}`));
  const rooms = nodes.filter((node) => !node.isExit).map((node) => option(node.name, `${node.name}: ${node.start} of ${node.capacity}`));
  const ways = [...building.arcs].map(([way, arc]) => option(way, `${arc.tail} to ${arc.head}: ${isShut(building, arc) ? 'closed' : `rate ${arc.rate}`}`));
  const group = /** @param {string} label @param {HTMLElement[]} options */ (label, options) => html('optgroup', { label }, ...options);
  return [group('Exits', exits), group('Ways', ways), group('Rooms', rooms)];
}

/**
 * A difference in seconds.
 * @param {Building} building
 * @param {number} moments
 */
function difference(building, moments) {
  if (moments === 0) return 'no change';
  return `${moments > 0 ? '+' : '−'}${count(Math.abs(moments) * building.period)} s`;
}

/**
 * A row of what changed: the answer, and how much later all are out than as given.
 * @param {Answer} answer
 * @param {Answer} given
 * @param {boolean} isFirst
 */
function changeRow({ building, block, words }, given, isFirst) {
  const { people, cleared, half, most, mean } = measuresOf(block);
  const change = isFirst ? '' : difference(building, cleared - given.block.cleared);
  return [words, spanWords(building, cleared), change, spanWords(building, half), spanWords(building, most), spanWords(building, mean), count(people)];
}

/**
 * How the last change came out, in words.
 * @param {Answer[]} answers
 */
export function changeWords(answers) {
  const [before, after] = answers.slice(-2), change = after.block.cleared - before.block.cleared;
  const by = `${seconds(after.building, Math.abs(change))} ${change > 0 ? 'later' : 'sooner'} than`, was = spanWords(before.building, before.block.cleared);
  return `With the last change (${after.words}) all ${count(after.block.people)} people can be out ${whenWords(after.building, after.block.cleared)}. That is ${change ? by : 'as soon as'} before (${was}).`;
}

/**
 * What all changes came to, one below the other; each has those above it too.
 * @param {Answer[]} answers
 */
export function changeTable(answers) {
  const rows = answers.map((answer, at) => changeRow(answer, answers[0], at === 0));
  const heads = ['building, with all changes above', 'all out', 'change', 'half out', '95 % out', 'on average', 'people'];
  return [html('p', { id: 'change-words', class: 'lead' }, changeWords(answers), ' ', mark('checked')), html('div', { class: 'wide', tabindex: 0, role: 'group', 'aria-label': 'What changed, which scrolls sideways' }, table('What changed', heads, rows, { id: 'changes' }))];
}
