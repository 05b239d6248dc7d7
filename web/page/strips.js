/** Storeys over time as a picture: who stays on each, darker if more do. */
import { plain, svg } from './dom.js';
import { roundStep } from './chart.js';
import { count } from './times.js';

/** @typedef {import('./building.js').Building} Building */

/** @typedef {{floor: number, text: string, held: number[], most: number, first: number, last: number}} Storey with the most who stay, when first, and the last moment at which somebody does */

const WIDTH = 760, LEFT = 116, ROW = 18, BINS = 120, MOST_ROWS = 40;

/**
 * The people who stay on each storey at each moment, from the top.
 * @param {Building} building
 * @param {Map<string, Int32Array>} held
 * @returns {Storey[]}
 */
export function storeysOf(building, held) {
  const rooms = [...building.nodes.values()].filter((node) => !node.isExit);
  const floors = [...new Set(rooms.map(({ floor }) => floor))].sort((a, b) => b - a);
  return floors.map((floor) => {
    const rows = rooms.filter((node) => node.floor === floor).map(({ name }) => held.get(name));
    const sums = Array.from(rows[0] ?? [], (_, moment) => rows.reduce((sum, row) => sum + (row?.[moment] ?? 0), 0));
    const most = sums.reduce((a, b) => Math.max(a, b), 0);
    return { floor, text: building.floors.get(floor) ?? String(floor), held: sums, most, first: sums.indexOf(most), last: sums.reduce((last, n, moment) => (n > 0 ? moment : last), -1) };
  });
}

/**
 * @param {Building} building
 * @param {Storey[]} storeys
 */
export function stripPicture(building, storeys) {
  const shown = storeys.slice(0, MOST_ROWS), most = Math.max(1, ...shown.map((it) => it.most)), moments = shown[0]?.held.length ?? 1;
  const bins = Math.min(moments, BINS), height = ROW * shown.length + 22, wide = (WIDTH - LEFT) / bins;
  const picture = svg('svg', { viewBox: `0 0 ${WIDTH} ${height}`, role: 'img', 'aria-label': 'People who stay on each storey over time; darker is more. The table below has the greatest.', class: 'strips' });
  shown.forEach(({ text, held }, row) => {
    picture.append(svg('text', { x: 4, y: row * ROW + 13 }, [...plain(text)].slice(0, 15).join('')));
    for (let bin = 0; bin < bins; bin++) {
      const from = Math.floor((bin * moments) / bins), until = Math.max(from + 1, Math.floor(((bin + 1) * moments) / bins));
      const n = Math.max(...held.slice(from, until));
      if (n > 0) picture.append(svg('rect', { x: LEFT + bin * wide, y: row * ROW + 1, width: wide + 0.3, height: ROW - 2, class: 'stay', 'fill-opacity': (0.12 + (0.88 * n) / most).toFixed(2) }));
    }
  });
  const step = roundStep((moments - 1) * building.period, 6);
  for (let second = 0; second <= (moments - 1) * building.period; second += step) {
    const x = LEFT + ((second / building.period + 0.5) * (WIDTH - LEFT)) / moments;
    picture.append(svg('text', { x, y: height - 4, 'text-anchor': x > WIDTH - 30 ? 'end' : 'middle' }, `${count(second)} s`));
  }
  return picture;
}
