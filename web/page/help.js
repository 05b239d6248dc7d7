/** Helps where a building or an edit is refused: what the code means, and what to do. */
import { CODES, EDIT_CODES, STATEMENTS } from './parts.js';

/**
 * What a code means in a building, and what to do.
 * @param {number} code
 */
export function meaningOf(code) {
  const [, what, remedy] = CODES.find(([number]) => number === code) ?? [code, `The program refused it by code ${code}.`, ''];
  return { what, remedy };
}

/**
 * Why an edit is refused, and what to do.
 * @param {string} word
 * @param {number} code
 */
export function editMeaning(word, code) {
  const found = EDIT_CODES.find(([of, number]) => number === code && (of === word || of === ''));
  return found ? `${found[2]} ${found[3]}` : meaningOf(code).what;
}

/**
 * The form of a statement, if the first word of a line is that of one.
 * @param {string} line
 */
export function formOf(line) {
  const word = line.trim().split(/[ \t]/)[0];
  return STATEMENTS.filter(([form]) => form.split(' ')[0] === word);
}
