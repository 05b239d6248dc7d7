/**
 * Checks an answer by itself: the plan is feasible, it has everybody out by the stated moment and not before, and for each period the stated cut is worth as
 * many people as are out by then. So no plan has more out by any period, whoever made this one. Written from docs/users/formats.md and independent of the program.
 */
import { Fault } from './lines.js';
import { peopleOf, rateAt } from './building.js';
import { roomsOf } from './block.js';

/** @typedef {import('./building.js').Building} Building */
/** @typedef {import('./building.js').Arc} Arc */
/** @typedef {import('./block.js').Block} Block */
/** @typedef {import('./block.js').Shortfall} Shortfall */

/**
 * @typedef {object} Item a part of a cut: it is in the cuts of the periods from `first` to `last`, and worth so many people in each
 * @property {'entry' | 'hold' | 'arc'} kind people who aren't held up; waiting in a node; entering an arc
 * @property {string[]} names
 * @property {number} moment
 * @property {number} people
 * @property {number} first
 * @property {number} last
 */

/** @typedef {(name: string) => ArrayLike<number>} LabelsOf the labels of a node that is no exit, by moment */

/**
 * Wants something to hold.
 * @param {boolean} holds
 * @param {number} line
 * @param {string} what
 */
function want(holds, line, what) {
  if (!holds) throw new Fault(line, what);
}

/**
 * Each move keeps the rate of its arc, and arrives by `cleared`.
 * @param {Building} building
 * @param {Block} block
 */
function checkMoves(building, block) {
  for (const { moment, arc, people, line } of block.moves) {
    want(people <= rateAt(building, arc, moment), line, `at moment ${moment} more people enter the way from ${arc.tail} to ${arc.head} than its rate`);
    want(moment + arc.travel <= block.cleared, line, `the move arrives after moment ${block.cleared}`);
  }
}

/**
 * How the number of people in each node changes at each moment, by the node's name.
 * @param {Building} building
 * @param {Block} block
 */
export function changesOf(building, block) {
  /** @type {Map<string, Int32Array>} */
  const changes = new Map([...building.nodes.keys()].map((name) => [name, new Int32Array(block.cleared + 1)]));
  /**
   * @param {string} name
   * @param {number} moment
   * @param {number} people
   */
  const add = (name, moment, people) => {
    const row = changes.get(name);
    if (row && moment < row.length) row[moment] += people;
  };
  for (const { name, start } of building.nodes.values()) add(name, 0, start);
  for (const { name, moment, people } of building.entrants) add(name, moment, people);
  for (const { moment, arc, people } of block.moves) {
    add(arc.tail, moment, -people);
    add(arc.head, moment + arc.travel, people);
  }
  return changes;
}

/**
 * The last line that moves people into or out of a node by a moment.
 * @param {Block} block
 * @param {string} name
 * @param {number} moment
 */
function lineAt(block, name, moment) {
  const touches = block.moves.filter(({ arc, moment: at }) => (arc.tail === name && at <= moment) || (arc.head === name && at + arc.travel <= moment));
  return touches.at(-1)?.line ?? block.lines.people;
}

/**
 * Each node holds from none to its capacity at each moment.
 * @param {Building} building
 * @param {Block} block
 * @param {Map<string, Int32Array>} changes
 */
function checkNodes(building, block, changes) {
  for (const { name, capacity } of roomsOf(building)) {
    let held = 0;
    (changes.get(name) ?? []).forEach((/** @type {number} */ change, /** @type {number} */ moment) => {
      held += change;
      if (held < 0 || held > capacity) throw new Fault(lineAt(block, name, moment), `at moment ${moment} the node ${name} holds ${held} people, and has room for ${capacity}`);
    });
  }
}

/**
 * The lines `out` count who has arrived in exits, and all are out at `cleared` and not before.
 * @param {Building} building
 * @param {Block} block
 * @param {Map<string, Int32Array>} changes
 */
function checkCurve(building, block, changes) {
  const exits = [...building.nodes.values()].filter((node) => node.isExit).map(({ name }) => changes.get(name));
  let out = 0;
  block.out.forEach((stated, period) => {
    out += exits.reduce((sum, row) => sum + (row?.[period] ?? 0), 0);
    want(stated === out, block.lines.out + period, `by period ${period} the moves have ${out} people out, and not ${stated}`);
  });
  want(out === block.people, block.lines.cleared, `by moment ${block.cleared} only ${out} of ${block.people} people are out`);
  const before = block.out.at(-2);
  want(before === undefined || before < block.people, block.lines.cleared, 'everybody was out one period before');
}

/**
 * The people who come into each node, at moments up to one.
 * @param {Building} building
 */
function entriesOf(building) {
  const starts = roomsOf(building).map(({ name, start }) => ({ name, moment: 0, people: start }));
  return [...starts, ...building.entrants].filter(({ people }) => people > 0);
}

/**
 * The items of all cuts that labels state, each with its periods, of which none is above `last`.
 * @param {Building} building
 * @param {LabelsOf} labelsAt
 * @param {number} last
 * @returns {Generator<Item>}
 */
export function* itemsOf(building, labelsAt, last) {
  for (const { name, moment, people } of entriesOf(building)) {
    if (moment <= last) yield { kind: 'entry', names: [name], moment, people, first: Math.max(moment, labelsAt(name)[moment]), last };
  }
  for (const { name, capacity } of roomsOf(building)) {
    const labels = labelsAt(name);
    for (let moment = 0; moment < last; moment++) {
      const first = Math.max(moment + 1, labels[moment + 1]), end = Math.min(last, labels[moment] - 1);
      if (first <= end) yield { kind: 'hold', names: [name], moment, people: capacity, first, last: end };
    }
  }
  for (const arc of building.arcs.values()) yield* itemsOfArc(building, arc, labelsAt, last);
}

/**
 * The items that an arc makes.
 * @param {Building} building
 * @param {Arc} arc
 * @param {LabelsOf} labelsAt
 * @param {number} last
 * @returns {Generator<Item>}
 */
function* itemsOfArc(building, arc, labelsAt, last) {
  const tail = labelsAt(arc.tail), head = building.nodes.get(arc.head)?.isExit ? null : labelsAt(arc.head);
  for (let moment = 0; moment + arc.travel <= last; moment++) {
    const arrival = moment + arc.travel;
    const first = head ? Math.max(arrival, head[arrival]) : arrival, end = Math.min(last, tail[moment] - 1);
    if (first <= end) yield { kind: 'arc', names: [arc.tail, arc.head], moment, people: rateAt(building, arc, moment), first, last: end };
  }
}

/**
 * What the cut of each period is worth, up to one.
 * @param {Building} building
 * @param {LabelsOf} labelsAt
 * @param {number} last
 */
function valuesOf(building, labelsAt, last) {
  const rises = new Float64Array(last + 2);
  for (const item of itemsOf(building, labelsAt, last)) {
    if (item.first > item.last) continue;
    rises[item.first] += item.people;
    rises[item.last + 1] -= item.people;
  }
  let value = 0;
  return rises.map((rise) => (value += rise));
}

/**
 * The labels of a block as a function.
 * @param {Block} block
 * @returns {LabelsOf}
 */
export function labelsOf(block) {
  return (name) => /** @type {Int32Array} */ (block.labels.get(name));
}

/**
 * The cut of each period before `cleared` is worth the people out by then.
 * @param {Building} building
 * @param {Block} block
 */
function checkCuts(building, block) {
  if (block.cleared === 0) return;
  valuesOf(building, labelsOf(block), block.cleared - 1).forEach((value, period) => {
    if (period >= block.cleared) return;
    want(value === block.out[period], block.lines.out + period, `the cut of period ${period} is worth ${value}, and ${block.out[period]} people are out`);
  });
}

/**
 * Checks an answer block of a building: what doesn't hold is a Fault.
 * @param {Building} building
 * @param {Block} block
 */
export function checkBlock(building, block) {
  const people = peopleOf(building);
  want(block.people === people, block.lines.people, `the building has ${people} people`);
  checkMoves(building, block);
  const changes = changesOf(building, block);
  checkNodes(building, block, changes);
  checkCurve(building, block, changes);
  checkCuts(building, block);
}

/**
 * The labels that state the cut of a shortfall: above the horizon inside of it, and 0 outside.
 * @param {Building} building
 * @param {Shortfall} shortfall
 * @returns {LabelsOf}
 */
export function labelsOfShortfall(building, shortfall) {
  return (name) => (shortfall.inside.get(name) ?? []).map((isInside) => (isInside ? building.horizon + 1 : 0));
}

/**
 * Checks the block of a shortfall: its cut is worth what it states at the horizon, and fewer than there are people.
 * @param {Building} building
 * @param {Shortfall} shortfall
 */
export function checkShortfall(building, shortfall) {
  const people = peopleOf(building);
  want(shortfall.people === people, shortfall.lines.people, `the building has ${people} people`);
  const value = valuesOf(building, labelsOfShortfall(building, shortfall), building.horizon)[building.horizon];
  want(shortfall.most === value, shortfall.lines.most, `the cut is worth ${value}`);
  want(value < people, shortfall.lines.most, 'the cut is worth as many as there are people');
}
