/** Shows an answer: in words and seconds first, then what decides, the curve, who is where, and the ways. */
import { html, mark, quoted, table } from './dom.js';
import { floorText, peopleOf } from './building.js';
import { curvePicture, legend, partsOf } from './chart.js';
import { drawing } from './drawing.js';
import { caughtIn, cutPlaces, fullMoments, heldByNode, measuresOf, peopleByWay, shortfallPlaces, uncongested } from './measures.js';
import { storeysOf, stripPicture } from './strips.js';
import { count, hasLaterEnd, momentWords, runsWords, seconds, some, spanWords, whenWords } from './times.js';

/** @typedef {import('./building.js').Building} Building */
/** @typedef {import('./desk.js').Answer} Answer */
/** @typedef {import('./desk.js').Short} Short */
/** @typedef {import('./measures.js').Place} Place */
/** @typedef {import('./dom.js').Child} Child */

const MOST_ROWS = 40, MOST_NAMES = 4, CURVE_ROWS = 20, MOST_EXIT_COLUMNS = 6;

/**
 * Some names, the first few if they are many.
 * @param {string[]} names
 */
function listed(names) {
  return names.length <= MOST_NAMES ? names.join(', ') : `${names.slice(0, MOST_NAMES - 1).join(', ')} and ${names.length - MOST_NAMES + 1} more`;
}

/**
 * The first rows of a table, and how many more there are.
 * @template T
 * @param {T[]} rows
 * @param {string} what
 * @returns {[T[], HTMLElement | null]}
 */
function firstRows(rows, what) {
  const more = rows.length - MOST_ROWS;
  return [rows.slice(0, MOST_ROWS), more > 0 ? html('p', { class: 'soft' }, `${some(more, `more ${what}`)} not shown.`) : null];
}

/**
 * A way or a node with the floors' texts in its tooltip.
 * @param {Building} building
 * @param {string[]} names
 */
function named(building, names) {
  const floors = [...new Set(names.map((name) => floorText(building, name)))].join(', ');
  return html('span', { title: floors }, names.join(' to '));
}

/**
 * What a place of a cut is.
 * @param {Building} building
 * @param {Place} place
 * @returns {Child}
 */
function placeWords(building, place) {
  if (place.kind === 'entry') return `not held up: ${listed(place.names)}`;
  if (place.kind === 'hold') return `waiting in ${place.names[0]}`;
  return named(building, place.names);
}

/**
 * A row of a cut: what, how many people, and when.
 * @param {Building} building
 * @param {Place} place
 * @returns {Child[]}
 */
function placeRow(building, place) {
  const closed = place.closed.length ? `closed ${runsWords(building, place.closed)}` : '';
  const when = place.kind === 'entry' ? '' : [runsWords(building, place.moments), closed].filter(Boolean).join('; ');
  return [placeWords(building, place), count(place.people), when];
}

/**
 * A table of the places of a cut.
 * @param {Building} building
 * @param {Place[]} places
 * @param {string} caption
 */
function cutTable(building, places, caption) {
  const [rows, more] = firstRows(places.filter((place) => place.people > 0 || place.closed.length > 0), 'place');
  return [table(caption, ['place', 'people', 'when people enter it'], rows.map((place) => placeRow(building, place))), more];
}

/**
 * A section with a heading and the mark of its ground.
 * @param {string} title
 * @param {Parameters<typeof mark>[0]} ground
 * @param {...Child} children
 */
function section(title, ground, ...children) {
  return html('section', {}, html('h3', {}, title, ' ', mark(ground)), ...children);
}

/**
 * A number with what it is.
 * @param {string} value
 * @param {string} what
 * @param {Parameters<typeof mark>[0]} ground
 */
function fact(value, what, ground) {
  return html('div', {}, html('dt', {}, what, ' ', mark(ground)), html('dd', {}, value));
}

/**
 * A number of people; if the building counts shares of them, both.
 * @param {Building} building
 * @param {number} number
 */
function peopleWords(building, number) {
  if (building.shares === 1) return some(number, 'person', 'people');
  return `${count(number)} shares of people (${(number / building.shares).toFixed(1)} people)`;
}

/**
 * What a building in shares has to say of the numbers below.
 * @param {Building} building
 */
function sharesNote(building) {
  if (building.shares === 1) return null;
  return html('p', { class: 'note' }, `This building counts each person as ${building.shares} shares, by its line #shares. So do all numbers of people and rates below: divide them by ${building.shares}.`);
}

/**
 * The answer in one sentence.
 * @param {Answer} answer
 */
export function sentence({ building, block }) {
  if (block.people === 0) return 'Nobody is in this building.';
  const who = block.people === 1 ? 'The one person' : `All ${peopleWords(building, block.people)}`;
  return `${who} can be out ${whenWords(building, block.cleared).replace(/ s( on)?$/, ' seconds$1')}.`;
}

/**
 * The answer of a shortfall in one sentence.
 * @param {Short} short
 */
export function shortSentence({ building, shortfall }) {
  return `At most ${count(shortfall.most)} of ${peopleWords(building, shortfall.people)} can be out by moment ${momentWords(building, building.horizon)}.`;
}

/**
 * The facts below the sentence.
 * @param {Answer} answer
 */
function facts({ building, block }) {
  const { half, most, mean, cleared } = measuresOf(block), walk = uncongested(building);
  return html('dl', { class: 'facts' },
    fact(spanWords(building, half), 'half are out', 'checked'),
    fact(spanWords(building, most), '95 % are out', 'checked'),
    fact(spanWords(building, mean), 'when a person is out, on average', 'checked'),
    fact(spanWords(building, walk), 'longest walk with nobody in the way', 'page'),
    fact(seconds(building, cleared - walk), 'more for congestion', 'page'));
}

/**
 * What the page's own checker says.
 * @param {Answer} answer
 */
function checkedWords({ block }) {
  return html('p', { id: 'verdict', class: 'verdict' }, html('strong', {}, 'Checked.'), ' This page has checked the answer by code of its own: the plan keeps every rate and capacity, has everybody out, and ',
    block.cleared ? `for each of the ${some(block.cleared, 'period')} before that, its cut is worth just as many people as are out. So no plan has more out by any moment.` : 'needs no time.');
}

/**
 * Why all aren't out one period sooner.
 * @param {Answer} answer
 */
function whySection({ building, block }) {
  if (block.cleared === 0) return null;
  const period = block.cleared - 1, out = block.out[period];
  const said = out ? `At most ${count(out)} of ${count(block.people)} can be out by moment ${momentWords(building, period)}. Each of them counts in one of these places:` : `Nobody can be out by moment ${momentWords(building, period)}: no walk is so short, or the ways are closed.`;
  return section('Why not sooner', 'checked', html('p', {}, said), ...(out ? cutTable(building, cutPlaces(building, block, period), 'The bottleneck of the last period: places that are full') : []));
}

/**
 * The exits with the people out by each, at each moment.
 * @param {Building} building
 * @param {Map<string, Int32Array>} held
 */
function exitParts(building, held) {
  const exits = [...building.nodes.values()].filter((node) => node.isExit);
  return partsOf(exits.map(({ name }) => ({ name, out: held.get(name) ?? new Int32Array(1) })));
}

/**
 * The curve of an answer, and beside it that of the building as given.
 * @param {Answer} answer
 * @param {Map<string, Int32Array>} held
 * @param {Answer | null} given
 */
function curveSection({ building, block }, held, given) {
  const parts = exitParts(building, held), step = Math.max(1, Math.ceil((block.cleared + 1) / CURVE_ROWS)), columns = parts.slice(0, MOST_EXIT_COLUMNS);
  const moments = block.out.map((_, moment) => moment).filter((moment) => moment % step === 0 || moment === block.cleared);
  const rows = moments.map((moment) => [spanWords(building, moment), count(block.out[moment]), ...columns.map(({ out }) => count(out[moment]))]);
  const keys = legend(parts, given !== null).map(({ box, words }) => html('li', {}, box, ' ', words));
  return section('People out by time', 'checked',
    html('figure', {}, curvePicture(building, block.out, parts, given?.block.out ?? null), html('ul', { class: 'legend' }, ...keys),
      html('figcaption', {}, 'The line is the same for every best plan. The areas are the exits of the ', mark('printed'))),
    html('details', {}, html('summary', {}, 'The same as a table'), table('People out, and by exit in the printed plan', ['seconds', 'out', ...columns.map(({ name }) => name)], rows)));
}

/**
 * How many are out, in rooms and on ways at a moment.
 * @param {Answer} answer
 * @param {Map<string, Int32Array>} held
 * @param {number} moment
 */
function whereWords({ building, block }, held, moment) {
  let inside = 0;
  for (const node of building.nodes.values()) if (!node.isExit) inside += held.get(node.name)?.[moment] ?? 0;
  const out = block.out[moment], toCome = building.entrants.filter((it) => it.moment > moment).reduce((sum, it) => sum + it.people, 0);
  const parts = [`${count(out)} out`, `${count(inside)} in rooms`, `${count(block.people - out - inside - toCome)} on their way`];
  if (toCome) parts.push(`${count(toCome)} still to come`);
  return `By moment ${momentWords(building, moment)}: ${parts.join(', ')}.`;
}

/**
 * Who is where, with a slider of moments.
 * @param {Answer} answer
 * @param {Map<string, Int32Array>} held
 * @param {Map<string, number[]>} full
 * @param {(names: string[]) => void} chosen
 */
function whereSection(answer, held, full, chosen) {
  const { building, block } = answer;
  const { picture, show } = drawing(building, peopleByWay(block), full, held, chosen);
  const said = html('output', { for: 'moment', class: 'where' });
  const turn = /** @param {number} moment */ (moment) => {
    said.textContent = whereWords(answer, held, moment);
    slider.setAttribute('aria-valuetext', said.textContent);
    show(moment);
  };
  const slider = html('input', { id: 'moment', type: 'range', min: 0, max: block.cleared, value: 0, step: 1, input: (/** @type {Event} */ event) => turn(Number(/** @type {HTMLInputElement} */ (event.target).value)) });
  turn(0);
  return section('Who is where', 'printed',
    html('p', { class: 'slide' }, html('label', { for: 'moment' }, 'Moment'), slider, said),
    html('div', { class: 'wide', tabindex: 0, role: 'group', 'aria-label': 'The building, which scrolls sideways' }, picture),
    html('p', { class: 'soft' }, 'In a room: people in it / capacity. A way is as wide as people take it. It is red if every best plan fills it at some moment, dashed if nobody takes it, and dotted if it is closed. Click a room or a way to change it.'));
}

/**
 * The storeys over time.
 * @param {Building} building
 * @param {Map<string, Int32Array>} held
 */
function storeySection(building, held) {
  const storeys = storeysOf(building, held), [rows, more] = firstRows(storeys, 'storey');
  const cells = rows.map((it) => [quoted(it.text), count(it.most), it.most ? spanWords(building, it.first) : '', it.last < 0 ? 'nobody stays' : spanWords(building, it.last + 1)]);
  return section('Storeys over time', 'printed', html('figure', {}, stripPicture(building, storeys)),
    html('details', {}, html('summary', {}, 'The same as a table'), table('People who stay on each storey', ['storey', 'most who stay', 'when first', 'last one leaves'], cells), more));
}

/**
 * The ways that every best plan fills.
 * @param {Answer} answer
 * @param {Map<string, number[]>} full
 */
function fullSection({ building, block }, full) {
  const people = peopleByWay(block), ways = [...full].sort(([, a], [, b]) => b.length - a.length), [rows, more] = firstRows(ways, 'way');
  if (ways.length === 0) return null;
  const cells = rows.map(([way, moments]) => [named(building, way.split(' ')), String(building.arcs.get(way)?.rate), count(people.get(way) ?? 0), runsWords(building, moments)]);
  return section('Full in every best plan', 'cuts', html('p', {}, 'At these moments every best plan has these ways as full as can be. To widen one of them alone may still bring nothing: try it above.'),
    table('Ways that are full', ['way', 'rate', 'people in the printed plan', 'full'], cells), more);
}

/**
 * What is assumed.
 * @param {Building} building
 */
function assumptions(building) {
  const windows = [...building.arcs.values()].reduce((sum, arc) => sum + arc.windows.length, 0);
  return section('What it assumes', 'page', html('ul', {},
    html('li', {}, `A period lasts ${some(building.period, 'second')}. The plan looks ${seconds(building, building.horizon)} ahead. The people of a period count as if all set out at its first instant. ${hasLaterEnd(building) ? 'So a time is from its moment on and before the next.' : 'People come in later, and not every node holds everybody: so no later end of a time is claimed.'}`),
    html('li', {}, `${some(building.nodes.size, 'node')}, ${some(building.arcs.size, 'way')}, ${some(windows, 'closure')}, ${some(building.entrants.length, 'late arrival')}.`),
    html('li', {}, 'Everybody follows the plan. Nobody has proved that the rates, travel times and capacities are true of the building: check them against your code and your drawings.'),
    html('li', {}, 'It is the best case. It doesn\'t predict what people will do. Add the time before people set out, and the margin that your code asks for.')));
}

/**
 * What an answer shows right below its sentence: what it means, whether it was checked, and what decides.
 * @param {Answer} answer
 * @returns {Child[]}
 */
export function firstParts(answer) {
  const { building, block } = answer;
  if (block.people === 0) return [checkedWords(answer)];
  const lead = `No plan has them all out sooner. This is moment ${count(block.cleared)}, in periods of ${some(building.period, 'second')}. `;
  return [html('p', { class: 'lead' }, lead, mark('checked')), sharesNote(building), facts(answer), checkedWords(answer), whySection(answer)];
}

/**
 * What an answer shows below that: the curve, who is where, the storeys, the ways that are full, and what is assumed.
 * @param {Answer} answer
 * @param {Answer | null} given the building as given, if this is another one
 * @param {(names: string[]) => void} chosen hears what is clicked in the picture
 * @returns {Child[]}
 */
export function moreParts(answer, given, chosen) {
  const { building, block } = answer, held = heldByNode(building, block), full = fullMoments(building, block);
  if (block.people === 0) return [];
  return [curveSection(answer, held, given), whereSection(answer, held, full, chosen), storeySection(building, held), fullSection(answer, full), assumptions(building)];
}

/**
 * What a shortfall shows below its sentence.
 * @param {Short} short
 * @returns {Child[]}
 */
export function shortParts({ building, shortfall }) {
  const caught = caughtIn(building), held = [...shortfall.inside].filter(([, moments]) => moments.at(-1)).map(([name]) => name);
  const remedy = caught.length ? `No way leads out from ${listed(caught)}. Add the way that is missing, or turn one round.` : 'Raise the horizon first. If that brings nobody more out, widen one of the ways below, or add one.';
  return [
    sharesNote(building),
    html('p', { id: 'verdict', class: 'verdict' }, html('strong', {}, 'Checked.'), ` This page has added up the cut that shows it: it is worth ${count(shortfall.most)} people, and ${count(peopleOf(building))} have to get out. `, mark('checked')),
    html('p', {}, html('strong', {}, 'What to do: '), remedy, ' ', mark('page')),
    held.length ? html('p', {}, `People are held up in ${held.length <= 12 ? held.join(', ') : `${held.slice(0, 12).join(', ')} and ${held.length - 12} more`}.`) : null,
    section('What holds them up', 'checked', ...cutTable(building, shortfallPlaces(building, shortfall), 'The places by which people get out, as many as can')),
  ];
}
