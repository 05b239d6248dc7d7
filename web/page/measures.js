/** The numbers of an answer that the page shows, added up from its block. */
import { changesOf, itemsOf, labelsOf, labelsOfShortfall } from './check.js';
import { isShut } from './edits.js';

/** @typedef {import('./building.js').Building} Building */
/** @typedef {import('./building.js').Arc} Arc */
/** @typedef {import('./block.js').Block} Block */
/** @typedef {import('./block.js').Shortfall} Shortfall */
/** @typedef {import('./check.js').Item} Item */

/**
 * @typedef {object} Place a place of a cut: its items added up
 * @property {Item['kind']} kind
 * @property {string[]} names
 * @property {number} people
 * @property {number[]} moments at which it counts
 * @property {number[]} closed moments at which it lets nobody in
 */

/**
 * Adds items up by place, those that count most first.
 * @param {Iterable<Item>} items
 * @returns {Place[]}
 */
function placesOf(items) {
  /** @type {Map<string, Place>} */
  const places = new Map();
  for (const { kind, names, moment, people } of items) {
    const key = kind === 'entry' ? kind : [kind, ...names].join(' ');
    const place = places.get(key) ?? { kind, names: [], people: 0, moments: [], closed: [] };
    places.set(key, place);
    for (const name of names) if (!place.names.includes(name)) place.names.push(name);
    place.people += people;
    (people > 0 ? place.moments : place.closed).push(moment);
  }
  return [...places.values()].sort((a, b) => b.people - a.people);
}

/**
 * Those items that are in the cut of a period.
 * @param {Iterable<Item>} items
 * @param {number} period
 */
function* itemsAt(items, period) {
  for (const item of items) if (item.first <= period && period <= item.last) yield item;
}

/**
 * The places of the cut of a period before all are out.
 * @param {Building} building
 * @param {Block} block
 * @param {number} period
 */
export function cutPlaces(building, block, period) {
  return placesOf(itemsAt(itemsOf(building, labelsOf(block), block.cleared - 1), period));
}

/**
 * The places of the cut that shows a shortfall.
 * @param {Building} building
 * @param {Shortfall} shortfall
 */
export function shortfallPlaces(building, shortfall) {
  return placesOf(itemsAt(itemsOf(building, labelsOfShortfall(building, shortfall), building.horizon), building.horizon));
}

/**
 * Of each arc the moments at which every best plan fills it: those at which it is an item of some cut. Every best plan has as many out by a period as its
 * cut is worth, so it fills each item.
 * @param {Building} building
 * @param {Block} block
 * @returns {Map<string, number[]>}
 */
export function fullMoments(building, block) {
  /** @type {Map<string, number[]>} */
  const full = new Map();
  if (block.cleared === 0) return full;
  for (const { kind, names, moment, people } of itemsOf(building, labelsOf(block), block.cleared - 1)) {
    if (kind !== 'arc' || people === 0) continue;
    const way = names.join(' '), moments = full.get(way);
    if (moments) moments.push(moment);
    else full.set(way, [moment]);
  }
  return full;
}

/**
 * How many people enter each arc in all.
 * @param {Block} block
 * @returns {Map<string, number>}
 */
export function peopleByWay(block) {
  const people = new Map();
  for (const { arc, people: n } of block.moves) people.set(`${arc.tail} ${arc.head}`, (people.get(`${arc.tail} ${arc.head}`) ?? 0) + n);
  return people;
}

/**
 * How many stay in each node at each moment, or are out by it for an exit.
 * @param {Building} building
 * @param {Block} block
 * @returns {Map<string, Int32Array>}
 */
export function heldByNode(building, block) {
  const rows = changesOf(building, block);
  for (const row of rows.values()) row.forEach((change, at) => { row[at] = change + (at ? row[at - 1] : 0); });
  return rows;
}

/**
 * The first period by which at least so many are out.
 * @param {number[]} out
 * @param {number} people
 */
export function periodOf(out, people) {
  return out.findIndex((n) => n >= people);
}

/**
 * The mean moment at which a person is out.
 * @param {Block} block
 */
export function meanMoment(block) {
  const sum = block.out.reduce((total, n, period) => total + period * (n - (period ? block.out[period - 1] : 0)), 0);
  return block.people ? sum / block.people : 0;
}

/**
 * The quickest way out from each node in periods, with nobody in the way and windows aside. Nodes from which none leads are left out.
 * @param {Building} building
 */
export function walksOf(building) {
  /** @type {Map<string, Arc[]>} */
  const into = new Map();
  for (const arc of building.arcs.values()) {
    if (!isShut(building, arc) && arc.rate > 0) into.set(arc.head, [...(into.get(arc.head) ?? []), arc]);
  }
  const walks = new Map([...building.nodes.values()].filter((node) => node.isExit && !node.isShut).map(({ name }) => [name, 0]));
  const waiting = [...walks.keys()];
  for (let name = waiting.shift(); name !== undefined; name = waiting.shift()) {
    for (const { tail, travel } of into.get(name) ?? []) {
      const walk = (walks.get(name) ?? 0) + travel;
      if (walk >= (walks.get(tail) ?? Infinity)) continue;
      walks.set(tail, walk);
      waiting.push(tail);
    }
  }
  return walks;
}

/**
 * The longest of the quickest walks of those inside at moment 0.
 * @param {Building} building
 */
export function uncongested(building) {
  const walks = walksOf(building);
  return [...building.nodes.values()].filter(({ start }) => start > 0).reduce((most, { name }) => Math.max(most, walks.get(name) ?? 0), 0);
}

/**
 * @typedef {object} Measures
 * @property {number} people
 * @property {number} cleared
 * @property {number} half the first period by which half are out
 * @property {number} most the first period by which 95 of 100 are out
 * @property {number} mean moment
 */

/**
 * @param {Block} block
 * @returns {Measures}
 */
export function measuresOf(block) {
  const { people, cleared, out } = block;
  return { people, cleared, half: periodOf(out, Math.ceil(people / 2)), most: periodOf(out, Math.ceil((people * 95) / 100)), mean: meanMoment(block) };
}

/**
 * Nodes that people start in or come into, and from which no way leads out.
 * @param {Building} building
 */
export function caughtIn(building) {
  const walks = walksOf(building);
  const inside = [...building.nodes.values()].filter(({ start }) => start > 0).map(({ name }) => name);
  return [...new Set([...inside, ...building.entrants.map(({ name }) => name)])].filter((name) => !walks.has(name));
}
