/** The page: a building, its answer, and changes of it. */
import { firstParts, moreParts, sentence, shortParts, shortSentence } from './answer_view.js';
import { changeButtons, changeTable, choices } from './change_view.js';
import { Desk } from './desk.js';
import { at, fill, html, plain, quoted } from './dom.js';
import { editedText } from './edits.js';
import { editMeaning, formOf, meaningOf } from './help.js';
import { InputView } from './input_view.js';
import { CLAIM, EXAMPLES, MODULE, ORIGIN, STATEMENTS, WORKER } from './parts.js';
import { Run } from './program.js';
import { fileName, save } from './save.js';

/** @typedef {import('./desk.js').Outcome} Outcome */
/** @typedef {import('./desk.js').Answer} Answer */
/** @typedef {import('./edits.js').Edit} Edit */
/** @typedef {import('./dom.js').Child} Child */

const EXCERPT = 80, SHOWN_MS = 20;

/** The page at work. */
class Page {
  /** @param {WebAssembly.Module} module */
  constructor(module) {
    const worker = URL.createObjectURL(new Blob([WORKER], { type: 'text/javascript' }));
    this.desk = new Desk((words, text, isLive) => new Run(new Worker(worker), module, words, text, isLive));
    this.input = new InputView(() => this.textChanged(), (words) => this.say(words));
    this.isBusy = false;
    /** @type {string[]} */
    this.chosen = [];
    /** @type {HTMLDetailsElement[]} what is open only while it is printed */
    this.opened = [];
    this.lastText = '';
    const clicks = { plan: () => this.plan(), stop: () => this.stop(), undo: () => this.undo(), 'save-building': () => this.saveBuilding(), 'save-answer': () => this.saveAnswer(), print: () => window.print() };
    for (const [id, click] of Object.entries(clicks)) at(id).addEventListener('click', click);
    window.addEventListener('beforeprint', () => this.beforePrint());
    window.addEventListener('afterprint', () => this.afterPrint());
    at('choice').addEventListener('change', (event) => this.choose(/** @type {HTMLSelectElement} */ (event.target).value.split(' ')));
    at('text').addEventListener('keydown', (event) => event.key === 'Enter' && (event.ctrlKey || event.metaKey) && this.plan());
    at('statements').append(...STATEMENTS.map(([form, ranges]) => html('div', {}, html('dt', {}, html('code', {}, form)), html('dd', {}, ranges))));
    at('claim').textContent = `${CLAIM} So the page checks each answer by itself before it shows it.`;
    at('origin').textContent = `Made from ${ORIGIN}.`;
    this.input.setExample(EXAMPLES[0][0]);
  }

  /**
   * Says something short, which a screen reader reads out.
   * @param {...Child} words
   */
  say(...words) {
    fill(at('status'), ...words);
    at('status').scrollIntoView({ block: 'nearest' });
  }

  /**
   * Runs something of the program, one at a time.
   * @param {string} words
   * @param {() => Promise<void>} work
   */
  async work(words, work) {
    if (this.isBusy) return;
    this.setBusy(true);
    this.say(words);
    try {
      await work();
    } finally {
      this.setBusy(false);
    }
  }

  /** @param {boolean} isBusy */
  setBusy(isBusy) {
    this.isBusy = isBusy;
    document.body.classList.toggle('busy', isBusy);
    /** @type {HTMLButtonElement} */ (at('stop')).disabled = !isBusy;
    for (const button of /** @type {NodeListOf<HTMLButtonElement>} */ (document.querySelectorAll('#plan, #changing button'))) button.disabled = isBusy;
    if (!isBusy) this.setUndo();
  }

  setUndo() {
    /** @type {HTMLButtonElement} */ (at('undo')).disabled = this.desk.answers.length < 2;
  }

  textChanged() {
    at('stale').hidden = !this.desk.current || this.input.text === this.desk.text;
  }

  plan() {
    return this.work('Planning ..', async () => {
      const began = performance.now(), outcome = await this.desk.plan(this.input.text);
      if (outcome.kind === 'stopped') this.say('Stopped. Nothing was changed.');
      else await this.show(outcome, performance.now() - began);
    });
  }

  stop() {
    this.desk.stop();
  }

  /**
   * Shows how a plan came out.
   * @param {Outcome} outcome
   * @param {number} took milliseconds
   */
  async show(outcome, took) {
    this.chosen = [];
    at('result').hidden = outcome.kind !== 'answer' && outcome.kind !== 'short';
    at('begin').hidden = true;
    fill(at('changes-part'));
    fill(at('change-buttons'));
    if (outcome.kind === 'short') this.showShort(outcome);
    else if (outcome.kind === 'answer') await this.showAnswer();
    else {
      this.showRefusal(outcome);
      return;
    }
    this.say(`Answered and checked in ${(took / 1000).toFixed(1)} s.`);
    at('sentence').focus();
    this.textChanged();
  }

  /** Shows the answer that stands: the words first, so that they are there to read, and then the pictures. */
  async showAnswer() {
    const answer = /** @type {Answer} */ (this.desk.current), given = this.desk.answers[0];
    this.head(answer.building.title, sentence(answer));
    at('changing').hidden = answer.block.people === 0;
    fill(at('first-parts'), ...firstParts(answer));
    await new Promise((done) => setTimeout(done, SHOWN_MS));
    fill(at('parts'), ...moreParts(answer, given === answer ? null : given, (names) => this.choose(names)));
    fill(at('changes-part'), ...(given === answer ? [] : changeTable(this.desk.answers)));
    fill(at('choice'), ...choices(answer.building));
    at('answer-text').textContent = answer.text.length > 100000 ? `${answer.text.slice(0, 100000)}\n.. Save the answer to have all of it.` : answer.text;
    this.choose(this.chosen.length ? this.chosen : [/** @type {HTMLSelectElement} */ (at('choice')).value]);
    this.setUndo();
  }

  /**
   * Shows a shortfall of the given building.
   * @param {import('./desk.js').Short} short
   */
  showShort(short) {
    this.head(short.building.title, shortSentence(short));
    at('changing').hidden = true;
    fill(at('first-parts'), ...shortParts(short));
    fill(at('parts'));
    at('answer-text').textContent = short.text;
    this.lastText = short.text;
  }

  /**
   * The head of an answer.
   * @param {string} title
   * @param {string} sentence
   */
  head(title, sentence) {
    fill(at('building-name'), quoted(title || this.input.name));
    at('sentence').textContent = sentence;
  }

  /**
   * Says why there is no answer.
   * @param {Outcome} outcome
   */
  showRefusal(outcome) {
    if (outcome.kind === 'refused') this.showRefused(outcome.code, outcome.line);
    else if (outcome.kind === 'wrong') this.say(html('strong', { id: 'verdict' }, `Wrong, at line ${outcome.line}`), ` of the answer: ${outcome.what}. The page's own checker refuses it, so it isn't shown. Please report it, with the building.`);
    else if (outcome.kind === 'failed') this.say(...this.failureWords(outcome.why, outcome.words));
  }

  /**
   * @param {'memory' | 'trap' | 'odd'} why
   * @param {string} words
   */
  failureWords(why, words) {
    if (why === 'memory') return ['There isn\'t enough memory for this building in this browser. Close other tabs and try again, or plan a part of the building. The program on Linux takes more. No answer was made.'];
    const said = why === 'trap' ? `The program was broken off (${plain(words)}).` : `The program ended without an answer (${plain(words)}).`;
    return [`${said} No answer was made, and nothing was lost. Please report it, with the building.`];
  }

  /**
   * Explains a refusal of the building.
   * @param {number} code
   * @param {number} line
   */
  showRefused(code, line) {
    const { what, remedy } = meaningOf(code), text = this.input.text.split('\n')[line - 1] ?? '';
    const forms = formOf(text).map(([form]) => html('code', {}, form));
    const excerpt = text ? html('code', { class: 'excerpt' }, plain(text.slice(0, EXCERPT))) : null;
    const go = html('button', { type: 'button', id: 'go-to-line', click: () => this.input.goTo(line) }, `Go to line ${line}`);
    this.say(html('strong', {}, `Line ${line}: ${what} `), remedy, excerpt, ...(forms.length ? [' It has the form ', ...forms, '. '] : [' ']), this.input.hidden === null ? go : null);
  }

  /**
   * Chooses what the buttons change.
   * @param {string[]} names
   */
  choose(names) {
    const answer = this.desk.current;
    if (!answer) return;
    this.chosen = names;
    /** @type {HTMLSelectElement} */ (at('choice')).value = names.join(' ');
    fill(at('change-buttons'), ...changeButtons(answer.building, names, (edit) => this.edit(edit)));
    if (this.isBusy) this.setBusy(true);
  }

  /** @param {Edit} edit */
  edit(edit) {
    return this.work('Planning the change ..', async () => {
      const outcome = await this.desk.edit(edit);
      if (outcome.kind === 'answer') {
        await this.showAnswer();
        this.say('The change is made, and its answer is checked.');
        at('change-words').scrollIntoView({ block: 'nearest' });
      } else if (outcome.kind === 'short') this.say(html('strong', {}, 'The change is not made. '), `With it, not everybody gets out. ${shortSentence(outcome)} The building stays as it was.`);
      else if (outcome.kind === 'refused') this.say(html('strong', {}, 'The change is not made. '), editMeaning(edit.word, outcome.code));
      else if (outcome.kind === 'stopped') this.say('Stopped. The change is not made.');
      else this.showRefusal(outcome);
      this.focusAgain();
    });
  }

  /** Puts the focus back to the buttons, which were drawn anew. */
  focusAgain() {
    if (document.activeElement === document.body) at('choice').focus();
  }

  undo() {
    return this.work('Taking the last change back ..', async () => {
      await this.desk.undo();
      await this.showAnswer();
      this.say('The last change is taken back.');
      this.focusAgain();
    });
  }

  saveBuilding() {
    const text = this.buildingText, isChanged = text !== this.input.text;
    save(fileName(this.input.name, isChanged ? '-changed.evac' : '.evac'), text);
    this.say(isChanged ? 'The building is saved with its changes.' : 'The building is saved.');
  }

  saveAnswer() {
    save(fileName(this.input.name, '-answer.txt'), this.desk.current?.text ?? this.lastText);
    this.say('The answer is saved. On a computer with evacplan, `check` reads the building and then this.');
  }

  /** The building's text as it stands: with the changes, if there are some and the text is still the one that was planned. */
  get buildingText() {
    const [given] = this.desk.answers, answer = this.desk.current;
    const isChanged = answer !== null && answer !== given && this.input.text === this.desk.text;
    return isChanged ? editedText(this.desk.text, given.building, answer.building) : this.input.text;
  }

  /** Before the browser prints: tables are opened, and the building's text is put below. The report is the answer without buttons. */
  beforePrint() {
    const answer = this.desk.current, text = answer ? editedText(this.desk.text, this.desk.answers[0].building, answer.building) : this.input.text;
    fill(at('printed-text'), ...text.split('\n').map((line) => `${plain(line.replace(/\r$/, ''))}\n`));
    this.opened = /** @type {HTMLDetailsElement[]} */ ([...document.querySelectorAll('#parts details:not([open])')]);
    this.opened.forEach((it) => { it.open = true; });
  }

  afterPrint() {
    this.opened.forEach((it) => { it.open = false; });
    this.opened = [];
  }
}

/**
 * The bytes of a text in base64.
 * @param {string} text
 */
function bytesOf(text) {
  return Uint8Array.from(atob(text), (letter) => letter.charCodeAt(0));
}

try {
  new Page(await WebAssembly.compile(bytesOf(MODULE)));
  document.body.classList.add('ready');
} catch (error) {
  at('status').textContent = `This browser can't run the program: ${error}. WebAssembly may be switched off. Try another browser: Firefox, Chrome, Edge or Safari of 2022 or later.`;
}
