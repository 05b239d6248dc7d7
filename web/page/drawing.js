/** The building as a picture: storeys, rooms and ways, with who is where at a moment. */
import { plain, svg } from './dom.js';
import { wayOf } from './building.js';
import { isShut } from './edits.js';
import { layoutOf } from './layout.js';
import { count, some } from './times.js';

/** @typedef {import('./building.js').Building} Building */
/** @typedef {import('./building.js').Arc} Arc */
/** @typedef {import('./layout.js').Layout} Layout */

const HALF_WIDTH = 34, HALF_HEIGHT = 17, MOST_LETTERS = 13;

/**
 * A text cut to so many letters.
 * @param {string} text
 * @param {number} most
 */
function cut(text, most) {
  const letters = [...plain(text)];
  return letters.length > most ? `${letters.slice(0, most - 1).join('')}…` : letters.join('');
}

/**
 * The curve of a way between two places: bent if both are in one line, and beside the way back if there is one.
 * @param {Building} building
 * @param {Layout} layout
 * @param {Arc} arc
 */
function pathOf(building, layout, arc) {
  const from = layout.places.get(arc.tail), to = layout.places.get(arc.head);
  if (!from || !to) return null;
  const hasBack = building.arcs.has(wayOf(arc.head, arc.tail));
  const bend = from.y === to.y ? (Math.abs(from.x - to.x) > 130 ? 44 : 16) * (hasBack && from.x > to.x ? -1 : 1) : 0;
  const middle = { x: (from.x + to.x) / 2 + (hasBack && from.y !== to.y ? (from.y < to.y ? 12 : -12) : 0), y: (from.y + to.y) / 2 + bend };
  const across = to.x - middle.x, down = to.y - middle.y, scale = Math.min(HALF_WIDTH / Math.abs(across || 1e-9), HALF_HEIGHT / Math.abs(down || 1e-9), 1);
  const end = { x: to.x - across * scale, y: to.y - down * scale };
  return `M${from.x.toFixed(0)} ${from.y.toFixed(0)}Q${middle.x.toFixed(0)} ${middle.y.toFixed(0)} ${end.x.toFixed(0)} ${end.y.toFixed(0)}`;
}

/**
 * What a way's tooltip says.
 * @param {Building} building
 * @param {Arc} arc
 * @param {number} people
 * @param {number} full
 */
function wayWords(building, arc, people, full) {
  const state = isShut(building, arc) ? ', closed' : full ? `, full in every best plan at ${some(full, 'moment')}` : '';
  return `${arc.tail} to ${arc.head}: ${some(people, 'person', 'people')} in the printed plan${state}`;
}

/**
 * A picture that is drawn once, and shows a moment by `show`.
 * @param {Building} building
 * @param {Map<string, number>} people by way
 * @param {Map<string, number[]>} full moments by way
 * @param {Map<string, Int32Array>} held people by node and moment
 * @param {(names: string[]) => void} chosen hears of a click on a way or a node
 */
export function drawing(building, people, full, held, chosen) {
  const layout = layoutOf(building), most = Math.max(1, ...people.values());
  const head = svg('path', { d: 'M0 0L8 4L0 8z' });
  const marker = svg('marker', { id: 'arrow', viewBox: '0 0 8 8', refX: 7, refY: 4, markerWidth: 8, markerHeight: 8, markerUnits: 'userSpaceOnUse', orient: 'auto' }, head);
  const label = `The building: ${some(building.nodes.size, 'node')} and ${some(building.arcs.size, 'way')} by storeys. The tables have the same numbers.`;
  const picture = svg('svg', { viewBox: `0 0 ${layout.width} ${layout.height}`, width: layout.width, height: layout.height, role: 'img', 'aria-label': label, class: 'drawing' }, svg('defs', {}, marker));
  for (const [way, arc] of building.arcs) {
    const d = pathOf(building, layout, arc), n = people.get(way) ?? 0, moments = full.get(way)?.length ?? 0;
    if (!d) continue;
    const kind = isShut(building, arc) ? 'shut' : moments ? 'full' : n ? 'used' : 'unused';
    const line = svg('path', { d, class: `way ${kind}`, 'stroke-width': (1.2 + (5.8 * n) / most).toFixed(1), 'marker-end': 'url(#arrow)' });
    picture.append(svg('g', { click: () => chosen([arc.tail, arc.head]) }, svg('title', {}, wayWords(building, arc, n, moments)), svg('path', { d, class: 'hit' }), line));
  }
  const shows = storeyTexts(building, layout, picture);
  const rooms = [...layout.places].map(([name, place]) => room(building, name, place, held.get(name), () => chosen([name])));
  picture.append(...shows, ...rooms.map(({ group }) => group));
  return { picture, show: /** @param {number} moment */ (moment) => rooms.forEach((it) => it.show(moment)) };
}

/**
 * The names of the storeys, and what is folded.
 * @param {Building} building
 * @param {Layout} layout
 * @param {SVGElement} picture
 */
function storeyTexts(building, layout, picture) {
  const floors = [...new Set(layout.rows.map(({ floor }) => floor))];
  return floors.flatMap((floor) => {
    const rows = layout.rows.filter((row) => row.floor === floor), text = building.floors.get(floor) ?? String(floor);
    const name = svg('text', { x: 4, y: rows[0].y + 4, class: 'storey' }, svg('title', {}, plain(text)), cut(text, MOST_LETTERS));
    const more = layout.folded.get(floor), y = /** @type {{y: number}} */ (rows.at(-1)).y + 54;
    return more ? [name, svg('text', { x: 110, y, class: 'axis' }, `.. and ${some(more, 'more storey')} like this one, down to that below ..`)] : [name];
  });
}

/**
 * A node: its box, its name, and the people in it at a moment.
 * @param {Building} building
 * @param {string} name
 * @param {{x: number, y: number}} place
 * @param {Int32Array | undefined} held
 * @param {() => void} clicked
 */
function room(building, name, place, held, clicked) {
  const node = /** @type {import('./building.js').Node} */ (building.nodes.get(name));
  const size = { x: place.x - HALF_WIDTH, y: place.y - HALF_HEIGHT, width: 2 * HALF_WIDTH, height: 2 * HALF_HEIGHT, rx: 4 };
  const shade = svg('rect', { ...size, class: 'shade', 'fill-opacity': 0 }), number = svg('text', { x: place.x, y: place.y + 12, class: 'number' });
  const box = svg('rect', { ...size, class: node.isExit ? (node.isShut ? 'exit closed' : 'exit') : 'room' });
  const title = svg('title', {}, `${name}, ${plain(building.floors.get(node.floor) ?? '')}`);
  const group = svg('g', { class: node.isExit ? 'node is-exit' : 'node', click: clicked }, title, box, node.isExit ? null : shade, svg('text', { x: place.x, y: place.y - 2, class: 'name' }, name), number);
  const show = /** @param {number} moment */ (moment) => {
    const n = held?.[Math.min(moment, held.length - 1)] ?? 0;
    number.textContent = node.isExit ? (node.isShut ? 'closed' : `${count(n)} out`) : `${count(n)}/${count(node.capacity)}`;
    shade.setAttribute('fill-opacity', node.capacity ? ((0.5 * n) / node.capacity).toFixed(2) : n ? '0.5' : '0');
  };
  return { group, show };
}
