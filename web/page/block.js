/** What the program prints of a plan, read by the rules of docs/users/formats.md: an answer block, and the block of a shortfall. */
import { Fault, linesOf, numberAt, wantFields } from './lines.js';
import { wayOf } from './building.js';

/** @typedef {import('./building.js').Building} Building */
/** @typedef {import('./building.js').Arc} Arc */
/** @typedef {import('./lines.js').Line} Line */

/** @typedef {{moment: number, arc: Arc, people: number, line: number}} Move */

/**
 * @typedef {object} Block
 * @property {number} number of the answer
 * @property {number} people
 * @property {number} cleared
 * @property {number[]} out by period
 * @property {Map<string, Int32Array>} labels of each node that is no exit, by moment below `cleared`
 * @property {Move[]} moves
 * @property {{people: number, cleared: number, out: number}} lines at which these stand: `out` is the line of period 0
 */

/**
 * @typedef {object} Shortfall
 * @property {number} people
 * @property {number} most
 * @property {Map<string, boolean[]>} inside of each node that is no exit, whether it is in the cut at each moment up to the horizon
 * @property {{people: number, most: number}} lines
 */

const MOST_NUMBER = 999999999;

/** Takes the lines of a text one by one. */
class Reader {
  /** @param {string} text */
  constructor(text) {
    this.lines = linesOf(text);
    this.at = 0;
    this.last = text.split('\n').length;
  }

  /**
   * Whether the next line has this first word.
   * @param {string} word
   */
  isNext(word) {
    return this.lines[this.at]?.fields[0] === word;
  }

  /**
   * The next line, which has this word and so many fields.
   * @param {string} word
   * @param {number} fields
   * @returns {Line}
   */
  take(word, fields) {
    const line = this.lines[this.at];
    if (!line) throw new Fault(this.last, `the answer ends before a line ${word}`);
    if (line.fields[0] !== word) throw new Fault(line.number, `a line ${word} was expected`);
    wantFields(line, fields);
    this.at++;
    return line;
  }

  /** The end, after which nothing comes. */
  end() {
    this.take('end', 1);
    if (this.at < this.lines.length) throw new Fault(this.lines[this.at].number, 'something comes after the end of the answer');
  }
}

/**
 * The names of a building's nodes that are no exits, in its order.
 * @param {Building} building
 */
export function roomsOf(building) {
  return [...building.nodes.values()].filter((node) => !node.isExit);
}

/**
 * The curve: a line for each period up to `cleared`.
 * @param {Reader} reader
 * @param {number} cleared
 */
function readOut(reader, cleared) {
  const out = [];
  for (let period = 0; period <= cleared; period++) {
    const line = reader.take('out', 3);
    numberAt(line, 1, period, period);
    out.push(numberAt(line, 2, 0, MOST_NUMBER));
  }
  return out;
}

/**
 * The labels of one node: a first line from moment 0, and then each from a later moment, with another label.
 * @param {Reader} reader
 * @param {string} name
 * @param {number} cleared
 */
function readLabels(reader, name, cleared) {
  const labels = new Int32Array(cleared);
  let from = -1, label = -1;
  while (from < 0 || (reader.isNext('label') && reader.lines[reader.at].fields[1] === name)) {
    const line = reader.take('label', 4);
    if (line.fields[1] !== name) throw new Fault(line.number, `a label of ${name} was expected`);
    const moment = numberAt(line, 2, from + 1, from < 0 ? 0 : cleared - 1), next = numberAt(line, 3, 0, cleared);
    if (next === label) throw new Fault(line.number, 'the label is the same as before');
    from = moment;
    label = next;
    labels.fill(label, from);
  }
  return labels;
}

/**
 * A move, which comes after the one before it by moment and then by arc.
 * @param {Reader} reader
 * @param {Building} building
 * @param {Map<Arc, number>} places of the arcs in their order
 * @param {Move | undefined} before
 * @returns {Move}
 */
function readMove(reader, building, places, before) {
  const line = reader.take('move', 5), way = wayOf(line.fields[2], line.fields[3]);
  const moment = numberAt(line, 1, 0, building.horizon), arc = building.arcs.get(way);
  if (!arc) throw new Fault(line.number, `there is no arc from ${line.fields[2]} to ${line.fields[3]}`);
  const people = numberAt(line, 4, 1, MOST_NUMBER);
  const isLater = /** @param {Move} it */ (it) => moment > it.moment || (moment === it.moment && (places.get(arc) ?? 0) > (places.get(it.arc) ?? 0));
  if (before && !isLater(before)) {
    throw new Fault(line.number, "the moves aren't in their order");
  }
  return { moment, arc, people, line: line.number };
}

/**
 * Reads an answer block of a building. One that isn't as the format has it is a Fault.
 * @param {Building} building
 * @param {string} text
 * @returns {Block}
 */
export function readBlock(building, text) {
  const reader = new Reader(text);
  const number = numberAt(reader.take('answer', 2), 1, 0, MOST_NUMBER);
  const peopleLine = reader.take('people', 2), clearedLine = reader.take('cleared', 2);
  const people = numberAt(peopleLine, 1, 0, MOST_NUMBER), cleared = numberAt(clearedLine, 1, 0, building.horizon);
  const outLine = reader.lines[reader.at]?.number ?? clearedLine.number;
  const out = readOut(reader, cleared);
  const labels = new Map((cleared > 0 ? roomsOf(building) : []).map(({ name }) => [name, readLabels(reader, name, cleared)]));
  const places = new Map([...building.arcs.values()].map((arc, at) => [arc, at]));
  /** @type {Move[]} */
  const moves = [];
  while (reader.isNext('move')) moves.push(readMove(reader, building, places, moves.at(-1)));
  reader.end();
  return { number, people, cleared, out, labels, moves, lines: { people: peopleLine.number, cleared: clearedLine.number, out: outLine } };
}

/**
 * Reads the block of a shortfall of a building.
 * @param {Building} building
 * @param {string} text
 * @returns {Shortfall}
 */
export function readShortfall(building, text) {
  const reader = new Reader(text);
  numberAt(reader.take('refused', 3), 1, 22, 22);
  const peopleLine = reader.take('people', 2), mostLine = reader.take('most', 2);
  /** @type {Map<string, boolean[]>} */
  const inside = new Map(roomsOf(building).map(({ name }) => [name, new Array(building.horizon + 1).fill(false)]));
  while (reader.isNext('in')) {
    const line = reader.take('in', 4), moments = inside.get(line.fields[1]);
    if (!moments) throw new Fault(line.number, `${line.fields[1]} is no room of the building`);
    const first = numberAt(line, 2, 0, building.horizon), last = numberAt(line, 3, first, building.horizon);
    moments.fill(true, first, last + 1);
  }
  reader.end();
  const lines = { people: peopleLine.number, most: mostLine.number };
  return { people: numberAt(peopleLine, 1, 0, MOST_NUMBER), most: numberAt(mostLine, 1, 0, MOST_NUMBER), inside, lines };
}
