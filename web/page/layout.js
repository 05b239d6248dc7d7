/** Places for a building's nodes in a picture: a function of the building, so the same building is drawn alike each time. */

/** @typedef {import('./building.js').Building} Building */
/** @typedef {import('./building.js').Node} Node */

/** @typedef {{floor: number, names: string[], y: number}} Row a line of nodes of a storey */

/**
 * @typedef {object} Layout
 * @property {number} width
 * @property {number} height
 * @property {Map<string, {x: number, y: number}>} places of the nodes that are drawn
 * @property {Row[]} rows
 * @property {Map<number, number>} folded for a storey that is drawn, how many like it come below it and aren't
 */

const LEFT = 110, CELL = 84, MOST_IN_ROW = 14, SWEEPS = 8;
const ROOM_STEP = 66, HALL_STEP = 88, FOLD_STEP = 28, TOP = 34;
const FOLDED_FROM = 4;

/**
 * What makes storeys alike: their nodes and ways but for the floor's number.
 * @param {Building} building
 * @param {number} floor
 */
function formOf(building, floor) {
  const short = /** @param {string} name */ (name) => name.split('.')[0];
  const nodes = [...building.nodes.values()].filter((node) => node.floor === floor).map(({ name, capacity, start }) => [short(name), capacity, start]);
  const ways = [...building.arcs.values()].filter(({ tail }) => building.nodes.get(tail)?.floor === floor);
  const forms = ways.map(({ tail, head, travel, rate }) => [short(tail), short(head), (building.nodes.get(head)?.floor ?? 0) - floor, travel, rate]);
  return JSON.stringify([nodes, forms]);
}

/**
 * The storeys from the top, and of four or more alike in a row the first and the last.
 * @param {Building} building
 */
function drawnFloors(building) {
  const floors = [...new Set([...building.nodes.values()].map(({ floor }) => floor))].sort((a, b) => b - a);
  const forms = new Map(floors.map((floor) => [floor, formOf(building, floor)]));
  /** @type {number[][]} */
  const groups = [];
  for (const floor of floors) {
    const group = groups.at(-1);
    if (group && forms.get(group[0]) === forms.get(floor)) group.push(floor);
    else groups.push([floor]);
  }
  const folded = new Map(groups.filter((group) => group.length >= FOLDED_FROM).map((group) => [group[0], group.length - 2]));
  const drawn = groups.flatMap((group) => (folded.has(group[0]) ? [group[0], /** @type {number} */ (group.at(-1))] : group));
  return { drawn, folded };
}

/**
 * The nodes of the storeys in lines: rooms first, and below them the halls, stairs, lobbies and exits by which people go on.
 * @param {Building} building
 * @param {number[]} floors
 */
function linesOfNodes(building, floors) {
  const lines = [];
  for (const floor of floors) {
    const nodes = [...building.nodes.values()].filter((node) => node.floor === floor);
    for (const isRoom of [true, false]) {
      const names = nodes.filter(({ kind }) => (kind === 'WP') === isRoom).map(({ name }) => name);
      if (names.length > 0) lines.push({ floor, isRoom, names });
    }
  }
  return lines;
}

/**
 * The nodes that have a way to or from each node.
 * @param {Building} building
 */
function neighboursOf(building) {
  /** @type {Map<string, string[]>} */
  const beside = new Map([...building.nodes.keys()].map((name) => [name, []]));
  for (const { tail, head } of building.arcs.values()) {
    beside.get(tail)?.push(head);
    beside.get(head)?.push(tail);
  }
  return beside;
}

/**
 * Orders each line by where the neighbours are, in turn from above and from below.
 * @param {Building} building
 * @param {{names: string[]}[]} lines
 */
function order(building, lines) {
  const beside = neighboursOf(building);
  /** @type {Map<string, number>} */
  const at = new Map();
  /** @param {string[]} names */
  const spread = (names) => names.forEach((name, place) => at.set(name, (place + 0.5) / names.length));
  lines.forEach(({ names }) => spread(names));
  const mean = /** @param {string} name */ (name) => {
    const near = (beside.get(name) ?? []).filter((other) => at.has(other)).map((other) => at.get(other) ?? 0);
    return near.length ? near.reduce((sum, it) => sum + it, 0) / near.length : at.get(name) ?? 0;
  };
  for (let sweep = 0; sweep < SWEEPS; sweep++) {
    for (const line of sweep % 2 ? lines : [...lines].reverse()) {
      const means = new Map(line.names.map((name) => [name, mean(name)]));
      line.names.sort((a, b) => (means.get(a) ?? 0) - (means.get(b) ?? 0));
      spread(line.names);
    }
  }
}

/**
 * Where each node is drawn.
 * @param {Building} building
 * @returns {Layout}
 */
export function layoutOf(building) {
  const { drawn, folded } = drawnFloors(building), lines = linesOfNodes(building, drawn);
  order(building, lines);
  const widest = Math.min(MOST_IN_ROW, Math.max(1, ...lines.map(({ names }) => names.length)));
  const width = Math.max(420, LEFT + widest * CELL), places = new Map();
  /** @type {Row[]} */
  const rows = [];
  let y = TOP;
  lines.forEach(({ floor, isRoom, names }, at) => {
    for (let from = 0; from < names.length; from += MOST_IN_ROW) {
      const part = names.slice(from, from + MOST_IN_ROW);
      part.forEach((name, place) => places.set(name, { x: LEFT + ((place + 0.5) / part.length) * (width - LEFT), y }));
      rows.push({ floor, names: part, y });
      y += isRoom || from + MOST_IN_ROW < names.length ? ROOM_STEP : HALL_STEP;
    }
    if (folded.has(floor) && lines[at + 1]?.floor !== floor) y += FOLD_STEP;
  });
  return { width, height: y - HALL_STEP + 50, places, rows, folded };
}
