/** Edits of a building, as a session has them (docs/users/formats.md): what they make of it, how they are said, and the text of an edited building. */
import { wayOf } from './building.js';
import { seconds } from './times.js';

/** @typedef {import('./building.js').Building} Building */
/** @typedef {import('./building.js').Node} Node */
/** @typedef {import('./building.js').Arc} Arc */

/**
 * @typedef {object} Edit
 * @property {'shut' | 'reopen' | 'shutexit' | 'openexit' | 'rate' | 'room' | 'enter' | 'leave' | 'window' | 'unwindow'} word of the session
 * @property {string[]} names one node, or the two ends of an arc
 * @property {number[]} numbers
 */

/**
 * The line of a session.
 * @param {Edit} edit
 */
export function lineOf({ word, names, numbers }) {
  return [word, ...names, ...numbers].join(' ');
}

/**
 * An edit in words.
 * @param {Edit} edit
 * @param {Building} building before the edit
 */
export function wordsOf({ word, names, numbers }, building) {
  const what = names.join(' to '), [n, until] = numbers;
  const start = building.nodes.get(names[0])?.start ?? 0;
  switch (word) {
    case 'shut': return `${what} closed`;
    case 'reopen': return `${what} open again`;
    case 'shutexit': return `exit ${what} closed`;
    case 'openexit': return `exit ${what} open again`;
    case 'rate': return `${what}: rate ${n}`;
    case 'room': return `${what}: capacity ${n}`;
    case 'enter': return `${what}: ${start + n} people`;
    case 'leave': return `${what}: ${start - n} people`;
    case 'window': return `${what} closed from ${seconds(building, n)} to ${seconds(building, until)}`;
    case 'unwindow': return `${what} no longer closed from ${seconds(building, n)} to ${seconds(building, until)}`;
  }
}

/**
 * A copy of a building that may be changed.
 * @param {Building} building
 * @returns {Building}
 */
function copyOf(building) {
  const nodes = new Map([...building.nodes].map(([name, node]) => [name, { ...node }]));
  const arcs = new Map([...building.arcs].map(([way, arc]) => [way, { ...arc, windows: [...arc.windows] }]));
  return { ...building, nodes, arcs };
}

/** @typedef {(node: Node, numbers: number[]) => void} OfNode */
/** @typedef {(arc: Arc, numbers: number[]) => void} OfArc */

/** @type {Record<string, OfNode>} */
const OF_NODES = {
  shutexit: (node) => { node.isShut = true; },
  openexit: (node) => { node.isShut = false; },
  room: (node, [n]) => { node.capacity = n; },
  enter: (node, [n]) => { node.start += n; },
  leave: (node, [n]) => { node.start -= n; },
};

/** @type {Record<string, OfArc>} */
const OF_ARCS = {
  shut: (arc) => { arc.isShut = true; },
  reopen: (arc) => { arc.isShut = false; },
  rate: (arc, [n]) => { arc.rate = n; },
  window: (arc, [first, until]) => { arc.windows.push({ first, until }); },
  unwindow: (arc, [first, until]) => { arc.windows = arc.windows.filter((it) => it.first !== first || it.until !== until); },
};

/**
 * The building after an edit that the program accepted.
 * @param {Building} building
 * @param {Edit} edit
 */
export function edited(building, { word, names, numbers }) {
  const copy = copyOf(building), node = copy.nodes.get(names[0]), arc = copy.arcs.get(wayOf(names[0], names[1]));
  if (node && OF_NODES[word]) OF_NODES[word](node, numbers);
  if (arc && OF_ARCS[word]) OF_ARCS[word](arc, numbers);
  return copy;
}

/**
 * Whether an arc is closed at all times.
 * @param {Building} building
 * @param {Arc} arc
 */
export function isShut(building, arc) {
  return arc.isShut || (building.nodes.get(arc.head)?.isShut ?? false);
}

/**
 * The lines of an arc in an edited building. A shut one has the rate 0, and a comment that keeps its rate.
 * @param {Building} building
 * @param {Arc} arc
 */
function arcLines(building, arc) {
  const shut = isShut(building, arc);
  const lines = [`arc ${arc.tail} ${arc.head} ${arc.travel} ${shut ? 0 : arc.rate}`];
  if (shut) lines.unshift(`# closed by an edit; its rate is ${arc.rate}`);
  return lines;
}

/** @param {Node} node */
function nodeLine(node) {
  return node.isExit ? `node ${node.name}` : `node ${node.name} ${node.capacity} ${node.start}`;
}

/**
 * The text of an edited building: the given text with the lines of what was edited changed, and its windows before `end`.
 * @param {string} text
 * @param {Building} given what the text says
 * @param {Building} building what edits made of it
 */
export function editedText(text, given, building) {
  const lines = text.split('\n').map((line) => line.replace(/\r$/, ''));
  /** @type {Map<number, string[]>} */
  const changed = new Map();
  for (const node of building.nodes.values()) {
    const before = given.nodes.get(node.name);
    if (before && nodeLine(before) !== nodeLine(node)) changed.set(node.line, [nodeLine(node)]);
  }
  for (const [way, arc] of building.arcs) {
    const before = given.arcs.get(way);
    if (before && arcLines(given, before).join() !== arcLines(building, arc).join()) changed.set(arc.line, arcLines(building, arc));
  }
  const said = lines.flatMap((line, at) => changed.get(at + 1) ?? (isDropped(line, given, building) ? [] : [line]));
  return withWindows(said, given, building).join('\n');
}

/**
 * Whether a line is a window of the given building that the edited one no longer has.
 * @param {string} line
 * @param {Building} given
 * @param {Building} building
 */
function isDropped(line, given, building) {
  const [word, tail, head, first, until] = line.trim().split(/[ \t]+/);
  const arc = building.arcs.get(wayOf(tail, head));
  return word === 'window' && given.arcs.has(wayOf(tail, head)) && !arc?.windows.some((it) => it.first === Number(first) && it.until === Number(until));
}

/**
 * Adds the windows that edits made before `end`, and makes it version 2 if there are some.
 * @param {string[]} lines
 * @param {Building} given
 * @param {Building} building
 */
function withWindows(lines, given, building) {
  const added = [...building.arcs].flatMap(([way, arc]) => {
    const before = given.arcs.get(way)?.windows ?? [];
    const more = arc.windows.filter((it) => !before.some((other) => other.first === it.first && other.until === it.until));
    return more.map(({ first, until }) => `window ${arc.tail} ${arc.head} ${first} ${until}`);
  });
  if (added.length === 0) return lines;
  const end = lines.findIndex((line) => line.trim() === 'end'), head = lines.findIndex((line) => /^[ \t]*evacplan[ \t]+1[ \t]*$/.test(line));
  const all = [...lines.slice(0, end), ...added, ...lines.slice(end)];
  return all.map((line, at) => (at === head ? 'evacplan 2' : line));
}
