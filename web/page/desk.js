/** A building that is planned and edited: it asks the program in a session, reads and checks each answer, and keeps all of them. */
import { readBuilding } from './building.js';
import { readBlock, readShortfall } from './block.js';
import { checkBlock, checkShortfall } from './check.js';
import { Fault } from './lines.js';
import { edited, lineOf, wordsOf } from './edits.js';

/** @typedef {import('./building.js').Building} Building */
/** @typedef {import('./block.js').Block} Block */
/** @typedef {import('./block.js').Shortfall} Shortfall */
/** @typedef {import('./edits.js').Edit} Edit */
/** @typedef {import('./program.js').Run} Run */
/** @typedef {import('./program.js').Reply} Reply */

/** @typedef {{line: number, what: string} | null} Wrong what the checker found wrong, with the line of the answer's text */

/** @typedef {{kind: 'answer', building: Building, block: Block, text: string, words: string, edit: Edit | null}} Answer an answer that was checked */
/** @typedef {{kind: 'short', building: Building, shortfall: Shortfall, text: string, words: string}} Short a shortfall that was checked */
/** @typedef {{kind: 'wrong', text: string, line: number, what: string}} WrongAnswer */
/** @typedef {{kind: 'refused', code: number, line: number}} Refused */
/** @typedef {{kind: 'failed', why: 'memory' | 'trap' | 'odd', words: string}} Failed */
/** @typedef {{kind: 'stopped'}} Stopped */
/** @typedef {Answer | Short | WrongAnswer | Refused | Failed | Stopped} Outcome */

const NO_MEMORY = 5;
const SHORT = 22;

/**
 * What the code of a refusal is, with its line, or null.
 * @param {string} text
 */
function refusalIn(text) {
  const found = /^refused (\d+) (\d+)\n/.exec(text);
  return found && { code: Number(found[1]), line: Number(found[2]) };
}

/**
 * Checks an answer that a text is, and gives it.
 * @param {string} text
 * @param {Building} building
 * @param {string} words
 * @param {Edit | null} edit
 * @returns {Answer | Short | WrongAnswer}
 */
export function checkedAnswer(text, building, words, edit) {
  try {
    if (refusalIn(text)?.code === SHORT) {
      const shortfall = readShortfall(building, text);
      checkShortfall(building, shortfall);
      return { kind: 'short', building, shortfall, text, words };
    }
    const block = readBlock(building, text);
    checkBlock(building, block);
    return { kind: 'answer', building, block, text, words, edit };
  } catch (error) {
    if (!(error instanceof Fault)) throw error;
    return { kind: 'wrong', text, line: error.line, what: error.message };
  }
}

/**
 * What a reply of a session is, of a building.
 * @param {Reply} reply
 * @param {() => Building} buildingOf
 * @param {string} words
 * @param {Edit | null} edit
 * @returns {Outcome}
 */
function outcomeOf(reply, buildingOf, words, edit) {
  if (reply.state === 'stopped') return { kind: 'stopped' };
  if (reply.state === 'failed') return { kind: 'failed', why: isMemory(reply.words) ? 'memory' : 'trap', words: reply.words };
  if (reply.state === 'ended' && reply.status === NO_MEMORY) return { kind: 'failed', why: 'memory', words: '' };
  const refusal = refusalIn(reply.text);
  if (refusal && refusal.code !== SHORT) return { kind: 'refused', ...refusal };
  if (!refusal && !reply.text.startsWith('answer ')) return { kind: 'failed', why: 'odd', words: `status ${reply.status}` };
  let building;
  try {
    building = buildingOf();
  } catch (error) {
    if (!(error instanceof Fault)) throw error;
    return { kind: 'wrong', text: reply.text, line: 1, what: `the page's reader refuses the building at its line ${error.line}: ${error.message}` };
  }
  return checkedAnswer(reply.text, building, words, edit);
}

/**
 * Whether an engine's words say that it has no memory.
 * @param {string} words
 */
function isMemory(words) {
  return /memory/i.test(words) && !/access|bounds/i.test(words);
}

/** A building at work. */
export class Desk {
  /** @param {(words: string[], text: string, isLive: boolean) => Run} begin starts the program */
  constructor(begin) {
    this.begin = begin;
    /** @type {Run | null} */
    this.run = null;
    this.text = '';
    /** @type {Answer[]} the building as given, and then after each edit */
    this.answers = [];
  }

  /** The answer that stands, if there is one. */
  get current() {
    return this.answers.at(-1) ?? null;
  }

  /**
   * Plans a building. What was planned before goes, unless this is stopped.
   * @param {string} text
   * @returns {Promise<Outcome>}
   */
  async plan(text) {
    this.stop();
    this.run = this.begin(['session'], text, true);
    const outcome = outcomeOf(await this.run.opening, () => readBuilding(text), 'as given', null);
    if (outcome.kind === 'stopped') return outcome;
    this.text = text;
    this.answers = outcome.kind === 'answer' ? [outcome] : [];
    return outcome;
  }

  /**
   * Makes an edit of the answer that stands. If it is refused, nothing changes.
   * @param {Edit} edit
   * @returns {Promise<Outcome>}
   */
  async edit(edit) {
    const before = /** @type {Answer} */ (this.current);
    const reply = await this.ask(lineOf(edit));
    const outcome = outcomeOf(reply, () => edited(before.building, edit), wordsOf(edit, before.building), edit);
    if (outcome.kind === 'answer') this.answers.push(outcome);
    if (outcome.kind === 'wrong') this.stop();
    return outcome;
  }

  /** Takes the last edit back: the answer before it stands again. A session that can't undo it is ended, and the next edit begins another. */
  async undo() {
    this.answers.pop();
    if (!this.run || this.run.isOver) return;
    const reply = await this.run.ask('undo');
    if (!reply.text.startsWith('answer ')) this.stop();
  }

  /**
   * Asks a line of the session, and begins one that has made the edits up to now if there is none.
   * @param {string} line
   * @returns {Promise<Reply>}
   */
  async ask(line) {
    if (this.run && !this.run.isOver) return this.run.ask(line);
    const run = this.begin(['session'], this.text, true);
    this.run = run;
    let reply = await run.opening;
    for (const { edit } of this.answers) {
      if (edit && reply.state === 'waits') reply = await run.ask(lineOf(edit));
    }
    return reply.state === 'waits' ? run.ask(line) : reply;
  }

  /** Ends what runs. */
  stop() {
    this.run?.stop();
  }
}
