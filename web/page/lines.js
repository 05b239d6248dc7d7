/** Lines, fields, numbers and names, as docs/users/formats.md has them. */

/** Something that isn't as the format has it, at a line counted from 1. */
export class Fault extends Error {
  /**
   * @param {number} line
   * @param {string} what
   */
  constructor(line, what) {
    super(what);
    this.line = line;
  }
}

/**
 * @typedef {object} Line a line that says something
 * @property {number} number counted from 1, blank lines and comments too
 * @property {string} text without its end
 * @property {string[]} fields
 */

/**
 * The fields of a line.
 * @param {string} text
 */
export function fieldsOf(text) {
  return text.match(/[^ \t]+/g) ?? [];
}

/**
 * The lines of a text that say something: no blank lines and comments.
 * @param {string} text
 * @returns {Line[]}
 */
export function linesOf(text) {
  const lines = text.split('\n').map((line, at) => {
    const said = line.endsWith('\r') ? line.slice(0, -1) : line;
    return { number: at + 1, text: said, fields: fieldsOf(said) };
  });
  return lines.filter(({ fields }) => fields.length > 0 && !fields[0].startsWith('#'));
}

/**
 * A field as a number in a range.
 * @param {Line} line
 * @param {number} at
 * @param {number} least
 * @param {number} most
 */
export function numberAt(line, at, least, most) {
  const field = line.fields[at];
  if (!/^[0-9]{1,9}$/.test(field)) throw new Fault(line.number, `${field} is no number`);
  const number = Number(field);
  if (number < least || number > most) throw new Fault(line.number, `${field} is out of its range, ${least} to ${most}`);
  return number;
}

const NAME = /^(WP|HA|SW|LO|DS)([1-9][0-9]{0,3})\.(0|[1-9][0-9]{0,2})$/;

/**
 * The kind and the floor in a field that is a name, or null.
 * @param {string} field
 */
export function partsOfName(field) {
  const parts = NAME.exec(field);
  return parts && { kind: parts[1], number: Number(parts[2]), floor: Number(parts[3]) };
}

/**
 * Wants so many fields.
 * @param {Line} line
 * @param {number} count
 */
export function wantFields(line, count) {
  if (line.fields.length !== count) throw new Fault(line.number, `${line.fields[0]} has ${line.fields.length - 1} fields after it, not ${count - 1}`);
}
