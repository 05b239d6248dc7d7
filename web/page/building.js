/** A building, and its reader. Both are written from docs/users/formats.md, and share nothing with the program. */
import { Fault, linesOf, numberAt, partsOfName, wantFields } from './lines.js';

/** @typedef {import('./lines.js').Line} Line */

/**
 * @typedef {object} Node
 * @property {string} name
 * @property {string} kind its two letters
 * @property {number} floor
 * @property {boolean} isExit
 * @property {number} capacity 0 of an exit
 * @property {number} start people in it at moment 0
 * @property {boolean} isShut an exit that an edit has shut
 * @property {number} line
 */

/**
 * @typedef {object} Arc a way from one node to another
 * @property {string} tail
 * @property {string} head
 * @property {number} travel periods
 * @property {number} rate people who may enter it in a period
 * @property {boolean} isShut
 * @property {{first: number, until: number}[]} windows in which nobody enters it
 * @property {number} line
 */

/** @typedef {{name: string, moment: number, people: number, line: number}} Entrant people who come into a node after moment 0 */

/**
 * @typedef {object} Building
 * @property {number} version
 * @property {string} title '' if it has none
 * @property {number} period seconds
 * @property {number} horizon moments
 * @property {Map<number, string>} floors
 * @property {Map<string, Node>} nodes by name, in the order of the text
 * @property {Map<string, Arc>} arcs by both names with a space between, in the order of the text
 * @property {Entrant[]} entrants
 * @property {number} end the line of `end`
 * @property {number} shares as how many shares each person is counted, by a comment `#shares N` (docs/users/modelling.md); 1 without one
 */

export const MOST_RATE = 10000;
export const MOST_PEOPLE = 100000;
const MOST_HORIZON = 1200;
const MOST_TRAVEL = 600;

/**
 * The name of an arc in a table of arcs.
 * @param {string} tail
 * @param {string} head
 */
export function wayOf(tail, head) {
  return `${tail} ${head}`;
}

/**
 * A text after a statement's first words.
 * @param {Line} line
 * @param {number} words
 */
function textAfter(line, words) {
  if (line.fields.length <= words) throw new Fault(line.number, 'a text is missing');
  return line.text.replace(new RegExp(`^[ \\t]*(?:[^ \\t]+[ \\t]+){${words}}`), '').replace(/[ \t]+$/, '');
}

/**
 * The node that a field names.
 * @param {Building} building
 * @param {Line} line
 * @param {number} at
 */
function nodeAt(building, line, at) {
  const node = building.nodes.get(line.fields[at]);
  if (!node) throw new Fault(line.number, `${line.fields[at]} isn't a node that is known here`);
  return node;
}

/**
 * What each statement does, but for `end`.
 * @type {Record<string, (building: Building, line: Line) => void>}
 */
const STATEMENTS = {
  title(building, line) {
    building.title = textAfter(line, 1);
  },
  period(building, line) {
    wantFields(line, 2);
    building.period = numberAt(line, 1, 1, 600);
  },
  horizon(building, line) {
    wantFields(line, 2);
    building.horizon = numberAt(line, 1, 0, MOST_HORIZON);
  },
  floor(building, line) {
    const text = textAfter(line, 2);
    building.floors.set(numberAt(line, 1, 0, 999), text);
  },
  node(building, line) {
    const name = line.fields[1], parts = partsOfName(name ?? '');
    if (!parts) throw new Fault(line.number, `${name} is no name of a node`);
    const isExit = parts.kind === 'DS';
    wantFields(line, isExit ? 2 : 4);
    if (!building.floors.has(parts.floor)) throw new Fault(line.number, `the floor ${parts.floor} wasn't given`);
    if (building.nodes.has(name)) throw new Fault(line.number, `${name} was given before`);
    const capacity = isExit ? 0 : numberAt(line, 2, 0, MOST_PEOPLE);
    const start = isExit ? 0 : numberAt(line, 3, 0, capacity);
    building.nodes.set(name, { name, kind: parts.kind, floor: parts.floor, isExit, capacity, start, isShut: false, line: line.number });
  },
  arc(building, line) {
    wantFields(line, 5);
    const tail = nodeAt(building, line, 1), head = nodeAt(building, line, 2), way = wayOf(tail.name, head.name);
    if (tail === head || tail.isExit || building.arcs.has(way)) throw new Fault(line.number, `there can't be such an arc from ${tail.name} to ${head.name}`);
    const travel = numberAt(line, 3, 1, MOST_TRAVEL), rate = numberAt(line, 4, 0, MOST_RATE);
    building.arcs.set(way, { tail: tail.name, head: head.name, travel, rate, isShut: false, windows: [], line: line.number });
  },
  window(building, line) {
    wantFields(line, 5);
    const arc = building.arcs.get(wayOf(nodeAt(building, line, 1).name, nodeAt(building, line, 2).name));
    if (!arc) throw new Fault(line.number, 'there is no such arc');
    const first = numberAt(line, 3, 0, 1200), until = numberAt(line, 4, 1, 1201);
    if (first >= until) throw new Fault(line.number, "the window doesn't begin before it ends");
    arc.windows.push({ first, until });
  },
  entrant(building, line) {
    wantFields(line, 4);
    const node = nodeAt(building, line, 1);
    if (node.isExit) throw new Fault(line.number, `${node.name} is an exit`);
    building.entrants.push({ name: node.name, moment: numberAt(line, 2, 1, 1200), people: numberAt(line, 3, 1, MOST_PEOPLE), line: line.number });
  },
};

/**
 * A first line as the version that it gives.
 * @param {Line | undefined} line
 * @returns {number}
 */
function versionOf(line) {
  const said = line ? line.fields.join(' ') : '';
  if (said !== 'evacplan 1' && said !== 'evacplan 2') throw new Fault(line ? line.number : 1, 'a building begins with evacplan 1 or evacplan 2');
  return Number(line?.fields[1]);
}

/**
 * As how many shares a text counts each person.
 * @param {string} text
 */
function sharesOf(text) {
  const found = /^[ \t]*#shares[ \t]+(\d{1,3})[ \t\r]*$/m.exec(text);
  return Math.max(1, Number(found?.[1] ?? 1));
}

/**
 * Reads a building. A text that isn't one is a Fault; which of its faults that names isn't promised: the program's refusal says that.
 * @param {string} text
 * @returns {Building}
 */
export function readBuilding(text) {
  const lines = linesOf(text);
  /** @type {Building} */
  const building = { version: versionOf(lines.shift()), title: '', period: 0, horizon: -1, floors: new Map(), nodes: new Map(), arcs: new Map(), entrants: [], end: 0, shares: sharesOf(text) };
  for (const line of lines) {
    const word = line.fields[0];
    if (building.end > 0) throw new Fault(line.number, 'something comes after `end`');
    if (word === 'end') {
      wantFields(line, 1);
      building.end = line.number;
    } else {
      if (!Object.hasOwn(STATEMENTS, word)) throw new Fault(line.number, `${word} is no word of a building`);
      STATEMENTS[word](building, line);
    }
  }
  if (building.end === 0) throw new Fault(text.split('\n').length, 'the text ends before `end`');
  if (building.period === 0 || building.horizon < 0) throw new Fault(building.end, 'the period or the horizon is missing');
  return building;
}

/**
 * All people: those inside at moment 0 and those who come in later.
 * @param {Building} building
 */
export function peopleOf(building) {
  const inside = [...building.nodes.values()].reduce((sum, node) => sum + node.start, 0);
  return building.entrants.reduce((sum, entrant) => sum + entrant.people, inside);
}

/**
 * How many may enter an arc at a moment.
 * @param {Building} building
 * @param {Arc} arc
 * @param {number} moment
 */
export function rateAt(building, arc, moment) {
  const isClosed = arc.isShut || building.nodes.get(arc.head)?.isShut || arc.windows.some(({ first, until }) => first <= moment && moment < until);
  return isClosed ? 0 : arc.rate;
}

/**
 * A node with the text of its floor.
 * @param {Building} building
 * @param {string} name
 */
export function floorText(building, name) {
  return building.floors.get(building.nodes.get(name)?.floor ?? -1) ?? '';
}
