/** Moments in seconds, and numbers in words. */
import { peopleOf } from './building.js';

/** @typedef {import('./building.js').Building} Building */

/**
 * A number with commas between thousands.
 * @param {number} number
 */
export function count(number) {
  return String(number).replace(/\B(?=(\d{3})+$)/g, ',');
}

/**
 * A number with its word.
 * @param {number} number
 * @param {string} one
 * @param {string} [more]
 */
export function some(number, one, more = `${one}s`) {
  return `${count(number)} ${number === 1 ? one : more}`;
}

/**
 * A moment in seconds.
 * @param {Building} building
 * @param {number} moment
 */
export function seconds(building, moment) {
  return `${count(moment * building.period)} s`;
}

/**
 * Whether all that a moment says holds by the end of its period, however short the periods are made: a law if nobody comes later, or each node holds everybody.
 * @param {Building} building
 */
export function hasLaterEnd(building) {
  const nodes = [...building.nodes.values()], people = peopleOf(building);
  return building.entrants.length === 0 || nodes.every((node) => node.isExit || node.capacity >= people);
}

/**
 * The seconds that a moment of people being out stands for, or a mean of such moments: `140 to 145 s`. The plan counts the people of a period as if all set
 * out at its first instant, so the true time is from this moment on and before the next. If no later end can be claimed: `from 140 s`.
 * @param {Building} building
 * @param {number} moment
 */
export function spanWords(building, moment) {
  const [from, until] = [moment, moment + 1].map((it) => count(Math.round(it * building.period)));
  return hasLaterEnd(building) ? `${from} to ${until} s` : `from ${from} s`;
}

/**
 * The same as the end of a sentence: `after 140 to 145 s`, or `from 140 s on`.
 * @param {Building} building
 * @param {number} moment
 */
export function whenWords(building, moment) {
  const span = spanWords(building, moment);
  return hasLaterEnd(building) ? `after ${span}` : `${span} on`;
}

/**
 * A moment with its seconds: `27 (135 to 140 s)`.
 * @param {Building} building
 * @param {number} moment
 */
export function momentWords(building, moment) {
  return `${count(moment)} (${spanWords(building, moment)})`;
}

/**
 * Runs of moments in a growing list, each with its first and last.
 * @param {number[]} moments
 * @returns {[number, number][]}
 */
export function runsOf(moments) {
  /** @type {[number, number][]} */
  const runs = [];
  for (const moment of moments) {
    const last = runs.at(-1);
    if (last && last[1] === moment - 1) last[1] = moment;
    else runs.push([moment, moment]);
  }
  return runs;
}

const MANY_RUNS = 4;

/**
 * The seconds of the periods of some moments: `10 to 120 s` for the moments 2 to 23 of 5 seconds each.
 * @param {Building} building
 * @param {number[]} moments
 */
export function runsWords(building, moments) {
  const runs = runsOf(moments), shown = runs.slice(0, MANY_RUNS), more = runs.length - shown.length;
  const words = shown.map(([first, last]) => `${count(first * building.period)} to ${count((last + 1) * building.period)}`);
  return `${words.join(', ')}${words.length ? ' s' : ''}${more > 0 ? ` and ${some(more, 'more span')}` : ''}`;
}
