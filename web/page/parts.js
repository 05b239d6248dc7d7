/** What `pack` puts into the page in place of this file: the program's module, its worker, examples, and tables of docs/users/formats.md. */

/**
 * The WebAssembly module, in base64.
 * @type {string}
 */
export const MODULE = '';

/**
 * The worker's script.
 * @type {string}
 */
export const WORKER = '';

/**
 * Examples: a name, and the text of a building.
 * @type {[string, string][]}
 */
export const EXAMPLES = [];

/**
 * The codes of refusals: the number, what it means, and what to do.
 * @type {[number, string, string][]}
 */
export const CODES = [];

/**
 * The codes of refused edits: the edit's word, or '' if it is any; the number, what it means, and what to do.
 * @type {[string, number, string, string][]}
 */
export const EDIT_CODES = [];

/**
 * The statements of the language, with their ranges.
 * @type {[string, string][]}
 */
export const STATEMENTS = [];

/**
 * What may be claimed of the module, in words.
 * @type {string}
 */
export const CLAIM = '';

/**
 * What the module was made from, in words.
 * @type {string}
 */
export const ORIGIN = '';
