/** A building's text as rows of nodes and ways, and the text after a row is changed, added or taken away. The rest of the text stays as it is. */
import { fieldsOf, partsOfName } from './lines.js';

/** @typedef {{line: number, fields: string[]}} Row a statement's line, counted from 0, and its fields after the word */

/** @typedef {{nodes: Row[], arcs: Row[], settings: Record<string, string>}} Rows */

/**
 * The rows of a text, whether or not it is a right one.
 * @param {string} text
 * @returns {Rows}
 */
export function rowsOf(text) {
  /** @type {Rows} */
  const rows = { nodes: [], arcs: [], settings: {} };
  text.split('\n').forEach((line, at) => {
    const [word, ...fields] = fieldsOf(line.replace(/\r$/, ''));
    if (word === 'node') rows.nodes.push({ line: at, fields });
    if (word === 'arc') rows.arcs.push({ line: at, fields });
    if (word === 'period' || word === 'horizon') rows.settings[word] = fields[0] ?? '';
  });
  return rows;
}

/**
 * A text with one line changed.
 * @param {string} text
 * @param {number} line
 * @param {string} said
 */
function withLine(text, line, said) {
  return text.split('\n').map((it, at) => (at === line ? said : it)).join('\n');
}

/**
 * A text with one field of a line changed.
 * @param {string} text
 * @param {number} line
 * @param {number} place of the field; the word is at 0
 * @param {string} value
 */
export function withField(text, line, place, value) {
  const fields = fieldsOf(text.split('\n')[line].replace(/\r$/, ''));
  fields[place] = value;
  return withLine(text, line, fields.join(' '));
}

/**
 * A text without the lines that a test names.
 * @param {string} text
 * @param {(fields: string[], line: number) => boolean} isGone
 */
function without(text, isGone) {
  return text.split('\n').filter((it, at) => !isGone(fieldsOf(it.replace(/\r$/, '')), at)).join('\n');
}

/**
 * A text without a node, and without all that names it.
 * @param {string} text
 * @param {string} name
 */
export function withoutNode(text, name) {
  return without(text, ([word, ...fields]) => ['node', 'entrant'].includes(word) ? fields[0] === name : ['arc', 'window'].includes(word) && fields.slice(0, 2).includes(name));
}

/**
 * A text without an arc and its windows.
 * @param {string} text
 * @param {string} tail
 * @param {string} head
 */
export function withoutArc(text, tail, head) {
  return without(text, ([word, ...fields]) => ['arc', 'window'].includes(word) && fields[0] === tail && fields[1] === head);
}

/**
 * A text with a line after the last one with one of these words, or else before `end`.
 * @param {string} text
 * @param {string} said
 * @param {string[]} words
 */
function withAdded(text, said, words) {
  const lines = text.split('\n'), firsts = lines.map((line) => fieldsOf(line)[0]);
  const last = Math.max(...words.map((word) => firsts.lastIndexOf(word)));
  const end = firsts.indexOf('end'), place = last >= 0 ? last + 1 : end >= 0 ? end : lines.length;
  return [...lines.slice(0, place), said, ...lines.slice(place)].join('\n');
}

/**
 * A text with a setting.
 * @param {string} text
 * @param {string} word
 * @param {string} value
 */
export function withSetting(text, word, value) {
  const at = text.split('\n').findIndex((line) => fieldsOf(line)[0] === word);
  return at >= 0 ? withLine(text, at, `${word} ${value}`) : withAdded(text, `${word} ${value}`, ['evacplan']);
}

/**
 * A text with one node more, and its floor if that isn't there.
 * @param {string} text
 * @param {string} name
 * @param {string[]} numbers capacity and start, none of an exit
 */
export function withNode(text, name, numbers) {
  const floor = partsOfName(name)?.floor ?? 0;
  const hasFloor = text.split('\n').some((line) => fieldsOf(line)[0] === 'floor' && Number(fieldsOf(line)[1]) === floor);
  const floored = hasFloor ? text : withAdded(text, `floor ${floor} Floor ${floor}`, ['floor', 'horizon', 'period', 'evacplan']);
  return withAdded(floored, ['node', name, ...numbers].join(' '), ['node', 'floor']);
}

/**
 * A text with one arc more.
 * @param {string} text
 * @param {string[]} fields
 */
export function withArc(text, fields) {
  return withAdded(text, ['arc', ...fields].join(' '), ['arc', 'node', 'floor']);
}

/**
 * The next name of a kind on a floor.
 * @param {Rows} rows
 * @param {string} kind
 * @param {number} floor
 */
export function nextName(rows, kind, floor) {
  const numbers = rows.nodes.map(({ fields }) => partsOfName(fields[0] ?? '')).filter((parts) => parts?.kind === kind && parts.floor === floor).map((parts) => parts?.number ?? 0);
  return `${kind}${Math.max(0, ...numbers) + 1}.${floor}`;
}

/** A building to begin with. */
export const EMPTY = 'evacplan 2\n\n# A period lasts 5 seconds, and the plan looks 120 periods ahead, which is 10 minutes.\nperiod 5\nhorizon 120\n\nfloor 1 Ground\n\nend\n';
