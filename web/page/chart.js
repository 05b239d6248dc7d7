/** The arrival curve as a picture: people out by time, the exits of the printed plan below it, and the curve before an edit. */
import { svg } from './dom.js';
import { count, seconds } from './times.js';

/** @typedef {import('./building.js').Building} Building */

/** @typedef {{name: string, out: ArrayLike<number>}} Part an exit, with the people out by it at each moment */

const WIDTH = 760, HEIGHT = 300, LEFT = 56, RIGHT = 28, TOP = 14, BOTTOM = 40;
const MOST_POINTS = 400;
const MOST_EXITS = 7;
const COLOURS = ['#1f5a99', '#a34400', '#1b6e3c', '#7a2d8c', '#8a1538', '#4b5320', '#00606b', '#5c4033'];

/**
 * The colour of an exit, by its place.
 * @param {number} at
 */
export function colourOf(at) {
  return COLOURS[at % COLOURS.length];
}

/**
 * The exits that most take, and the others as one.
 * @param {Part[]} exits
 * @returns {Part[]}
 */
export function partsOf(exits) {
  const last = /** @param {Part} part */ (part) => part.out[part.out.length - 1];
  const used = exits.filter((part) => last(part) > 0).sort((a, b) => last(b) - last(a));
  const rest = used.slice(MOST_EXITS);
  if (rest.length === 0) return used;
  const out = Array.from(rest[0].out, (_, moment) => rest.reduce((sum, part) => sum + part.out[moment], 0));
  return [...used.slice(0, MOST_EXITS), { name: `${rest.length} other exits`, out }];
}

/**
 * A round step so that about so many fit into a number.
 * @param {number} whole
 * @param {number} steps
 */
export function roundStep(whole, steps) {
  const least = Math.max(1, whole / steps), power = 10 ** Math.floor(Math.log10(least));
  return [1, 2, 5, 10].map((it) => it * power).find((it) => it >= least) ?? least;
}

/**
 * Numbers from 0 in round steps.
 * @param {number} whole
 * @param {number} steps
 */
function ticks(whole, steps) {
  const step = roundStep(whole, steps);
  return Array.from({ length: Math.floor(whole / step) + 1 }, (_, at) => at * step);
}

/**
 * The moments that are drawn.
 * @param {number} last
 */
function drawnMoments(last) {
  const step = Math.max(1, Math.ceil(last / MOST_POINTS));
  const moments = Array.from({ length: Math.floor(last / step) + 1 }, (_, at) => at * step);
  return moments.at(-1) === last ? moments : [...moments, last];
}

/**
 * @param {Building} building
 * @param {number[]} out people out by each period
 * @param {Part[]} parts
 * @param {number[] | null} before the curve of the building as given, if this is another one
 */
export function curvePicture(building, out, parts, before) {
  const last = Math.max(1, out.length - 1, before ? before.length - 1 : 0), most = Math.max(1, out.at(-1) ?? 0, before?.at(-1) ?? 0);
  /** @param {number} moment */
  const x = (moment) => LEFT + ((WIDTH - LEFT - RIGHT) * moment) / last;
  /** @param {number} people */
  const y = (people) => TOP + (HEIGHT - TOP - BOTTOM) * (1 - people / most);
  /**
   * @param {ArrayLike<number>} curve
   * @param {number} moment
   */
  const point = (curve, moment) => `${x(moment).toFixed(1)},${y(curve[moment]).toFixed(1)}`;
  const title = `People out by time: ${count(out.at(-1) ?? 0)} after ${seconds(building, out.length - 1)}. The table below has the numbers.`;
  const picture = svg('svg', { viewBox: `0 0 ${WIDTH} ${HEIGHT}`, role: 'img', 'aria-label': title, class: 'curve' });
  const moments = drawnMoments(out.length - 1);
  let below = new Array(out.length).fill(0);
  parts.forEach((part, at) => {
    const above = below.map((n, moment) => n + part.out[moment]), floor = below;
    const points = [...moments.map((moment) => point(above, moment)), ...[...moments].reverse().map((moment) => point(floor, moment))];
    picture.append(svg('polygon', { points: points.join(' '), fill: colourOf(at), 'fill-opacity': 0.35, stroke: colourOf(at), 'stroke-width': 0.7 }));
    below = above;
  });
  for (const people of ticks(most, 5)) {
    picture.append(svg('line', { x1: LEFT, x2: WIDTH - RIGHT, y1: y(people), y2: y(people), class: 'grid-line' }));
    picture.append(svg('text', { x: LEFT - 6, y: y(people) + 4, 'text-anchor': 'end' }, count(people)));
  }
  for (const second of ticks(last * building.period, 6)) {
    picture.append(svg('text', { x: x(second / building.period), y: HEIGHT - BOTTOM + 18, 'text-anchor': 'middle' }, `${count(second)} s`));
  }
  picture.append(svg('text', { x: WIDTH - RIGHT, y: HEIGHT - 4, 'text-anchor': 'end', class: 'axis' }, 'time since all set out'));
  if (before) picture.append(svg('polyline', { points: drawnMoments(before.length - 1).map((moment) => point(before, moment)).join(' '), class: 'before-line' }));
  picture.append(svg('polyline', { points: moments.map((moment) => point(out, moment)).join(' '), class: 'curve-line' }));
  return picture;
}

/**
 * The exits with their colours, as a list.
 * @param {Part[]} parts
 * @param {boolean} hasBefore
 */
export function legend(parts, hasBefore) {
  const items = parts.map((part, at) => {
    const box = svg('svg', { viewBox: '0 0 12 12', width: 12, height: 12, 'aria-hidden': 'true' }, svg('rect', { width: 12, height: 12, fill: colourOf(at), 'fill-opacity': 0.5 }));
    return { box, words: `${part.name}: ${count(part.out[part.out.length - 1])} people` };
  });
  const line = svg('svg', { viewBox: '0 0 24 12', width: 24, height: 12, 'aria-hidden': 'true' }, svg('line', { x1: 0, x2: 24, y1: 6, y2: 6, class: 'before-line' }));
  return hasBefore ? [...items, { box: line, words: 'the building as given' }] : items;
}
