/** The building's text: typed, pasted, opened, dropped or made by tables. A text that is too long for a box is kept beside it. */
import { at, html, plain } from './dom.js';
import { EXAMPLES } from './parts.js';
import { EMPTY } from './rows.js';
import { textOf } from './save.js';
import { buildingTables } from './table_view.js';
import { count } from './times.js';

const MOST_SHOWN = 200000;
const MOST_BYTES = 50000000;

/** The input of a page. */
export class InputView {
  /**
   * @param {() => void} changed hears of each change
   * @param {(words: string) => void} says what went wrong
   */
  constructor(changed, says) {
    this.changed = changed;
    this.says = says;
    this.name = '';
    /** @type {string | null} a text that isn't shown */
    this.hidden = null;
    this.box = /** @type {HTMLTextAreaElement} */ (at('text'));
    this.box.addEventListener('input', () => changed());
    at('file').addEventListener('change', (event) => this.openFirst(/** @type {HTMLInputElement} */ (event.target).files));
    at('as-text').addEventListener('click', () => this.showTables(false));
    at('as-tables').addEventListener('click', () => this.showTables(true));
    at('new').addEventListener('click', () => this.set('building', EMPTY));
    at('example').append(...EXAMPLES.map(([name]) => html('option', { value: name }, name)));
    at('example').addEventListener('change', (event) => this.setExample(/** @type {HTMLSelectElement} */ (event.target).value));
    document.addEventListener('dragover', (event) => event.preventDefault());
    document.addEventListener('drop', (event) => {
      event.preventDefault();
      this.openFirst(event.dataTransfer?.files ?? null);
    });
  }

  get text() {
    return this.hidden ?? this.box.value;
  }

  get hasTables() {
    return !at('tables').hidden;
  }

  /**
   * Takes a text.
   * @param {string} name of its file
   * @param {string} text
   */
  set(name, text) {
    this.name = name;
    this.hidden = text.length > MOST_SHOWN ? text : null;
    this.box.value = this.hidden ? '' : text;
    this.box.disabled = this.hidden !== null;
    at('file-name').textContent = plain(name);
    at('too-long').textContent = this.hidden ? `${plain(name)} has ${count(text.length)} letters. It is planned whole, but it is too long to show here.` : '';
    this.drawTables();
    this.changed();
  }

  /**
   * Takes an example.
   * @param {string} name
   */
  setExample(name) {
    const example = EXAMPLES.find(([it]) => it === name);
    if (example) this.set(`${name}.evac`, example[1]);
  }

  /**
   * Opens the first of some files.
   * @param {FileList | null} files
   */
  async openFirst(files) {
    const file = files?.[0];
    if (!file) return;
    if (file.size > MOST_BYTES) {
      this.says(`The file has ${count(file.size)} bytes, and a building has at most ${count(MOST_BYTES)}.`);
      return;
    }
    try {
      this.set(file.name, await textOf(file));
    } catch {
      this.says('The browser could not read this file.');
    }
    /** @type {HTMLInputElement} */ (at('file')).value = '';
  }

  /**
   * Shows the tables in place of the text, or the text.
   * @param {boolean} areShown
   */
  showTables(areShown) {
    at('tables').hidden = !areShown;
    at('text-part').hidden = areShown;
    at('as-tables').setAttribute('aria-pressed', String(areShown));
    at('as-text').setAttribute('aria-pressed', String(!areShown));
    this.drawTables();
  }

  /** Draws the tables anew, and leaves the focus at its place in them. */
  drawTables() {
    if (!this.hasTables) return;
    const fields = () => [.../** @type {NodeListOf<HTMLElement>} */ (at('tables').querySelectorAll('input, select, button'))];
    const focused = fields().indexOf(/** @type {HTMLElement} */ (document.activeElement));
    at('tables').replaceChildren(...buildingTables(this.hidden ? '' : this.box.value, (change, isNewRow) => {
      this.box.value = change(this.box.value);
      if (isNewRow) this.drawTables();
      this.changed();
    }));
    if (focused >= 0) fields()[focused]?.focus();
  }

  /**
   * Puts the cursor at a line of the text.
   * @param {number} line counted from 1
   */
  goTo(line) {
    this.showTables(false);
    const lines = this.box.value.split('\n'), from = lines.slice(0, line - 1).reduce((sum, it) => sum + it.length + 1, 0);
    this.box.focus();
    this.box.setSelectionRange(from, from + (lines[line - 1]?.length ?? 0));
    this.box.scrollTop = (this.box.scrollHeight / lines.length) * Math.max(0, line - 4);
  }
}
