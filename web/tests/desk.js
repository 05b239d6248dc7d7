// node desk.js MODULE.wasm PROGRAM: the page's sessions without a page: edits, refusals, undo beyond what a session keeps, a stop, a changed answer, and the
// text of an edited building, which the native program plans as the session did.
import assert from 'node:assert/strict';
import { spawnSync } from 'node:child_process';
import fs from 'node:fs';
import { Desk } from '../page/desk.js';
import { editedText } from '../page/edits.js';
import { Host } from '../page/host.js';
import { Run } from '../page/program.js';
import { EMPTY, nextName, rowsOf, withArc, withField, withNode, withSetting, withoutArc, withoutNode } from '../page/rows.js';
import { cutPlaces, measuresOf, uncongested } from '../page/measures.js';
import { readBuilding } from '../page/building.js';
import { momentWords, runsWords, spanWords, whenWords } from '../page/times.js';

const [modulePath, program] = process.argv.slice(2);
const module = await WebAssembly.compile(fs.readFileSync(modulePath));
const example = (name) => fs.readFileSync(new URL(`../../examples/${name}.evac`, import.meta.url), 'utf8');

/** Stands for a worker of the page, in this thread. `change` may change what is written. */
class InThread {
  constructor(change) {
    this.change = change;
    this.isEnded = false;
  }

  tell(data) {
    if (!this.isEnded) this.onmessage({ data });
  }

  async postMessage(told) {
    let status;
    if (told.module) {
      this.host = new Host(told.words, told.input, told.isLive, (bytes) => this.tell({ out: this.change(bytes) }));
      await this.host.load(told.module);
      status = this.host.goOn();
    } else {
      await null;
      status = this.host.give(told.line);
    }
    this.tell(status === null ? { waits: true } : { ended: status });
  }

  terminate() {
    this.isEnded = true;
  }
}

const newDesk = (change = (bytes) => bytes) => new Desk((words, text, isLive) => new Run(new InThread(change), module, words, text, isLive));
const clearedOf = (text) => Number(/^cleared (\d+)$/m.exec(String(spawnSync(program, ['solve'], { input: text, maxBuffer: 1 << 28 }).stdout))?.[1]);

async function testOffice() {
  const desk = newDesk(), given = await desk.plan(example('office'));
  // (the numbers of the README)
  assert.equal(given.block.cleared, 28);
  assert.deepEqual(measuresOf(given.block), { people: 240, cleared: 28, half: 13, most: 26, mean: measuresOf(given.block).mean });
  assert.equal(uncongested(given.building), 9);
  const closed = await desk.edit({ word: 'shutexit', names: ['DS2.1'], numbers: [] });
  assert.equal(closed.block.cleared, 50);
  assert.equal((await desk.edit({ word: 'rate', names: ['SW1.2', 'LO1.1'], numbers: [8] })).block.cleared, 31);
  await desk.undo();
  await desk.undo();
  assert.equal(desk.current, given);
  const short = await desk.edit({ word: 'shut', names: ['LO1.1', 'DS1.1'], numbers: [] });
  assert.deepEqual([short.kind, short.shortfall.most, short.shortfall.people], ['short', 180, 240]);
  const refused = await desk.edit({ word: 'enter', names: ['WP1.1'], numbers: [1000] });
  assert.deepEqual([refused.kind, refused.code], ['refused', 12]);
  assert.equal(desk.answers.length, 1);
}

/** Each kind of edit on its own: the text that is saved is planned as the session did. */
async function testSavedTexts() {
  const edits = [
    { word: 'shutexit', names: ['DS2.1'], numbers: [] }, { word: 'shut', names: ['HA1.2', 'SW1.2'], numbers: [] }, { word: 'rate', names: ['SW2.2', 'DS2.1'], numbers: [6] },
    { word: 'room', names: ['WP1.1'], numbers: [90] }, { word: 'enter', names: ['WP1.2'], numbers: [15] }, { word: 'leave', names: ['WP2.3'], numbers: [45] },
    { word: 'window', names: ['SW1.2', 'LO1.1'], numbers: [12, 36] },
  ];
  for (const edit of edits) {
    const desk = newDesk(), given = await desk.plan(example('office')), after = await desk.edit(edit);
    assert.equal(after.kind, 'answer', JSON.stringify(edit));
    assert.equal(clearedOf(editedText(desk.text, given.building, after.building)), after.block.cleared, JSON.stringify(edit));
    const back = { shutexit: 'openexit', shut: 'reopen', window: 'unwindow' }[edit.word];
    if (!back) continue;
    const again = await desk.edit({ ...edit, word: back });
    assert.equal(editedText(desk.text, given.building, again.building), desk.text);
  }
  const desk = newDesk(), given = await desk.plan(example('stair_repair')), [arc] = [...given.building.arcs.values()].filter((it) => it.windows.length);
  const { first, until } = arc.windows[0], opened = await desk.edit({ word: 'unwindow', names: [arc.tail, arc.head], numbers: [first, until] });
  assert.equal(clearedOf(editedText(desk.text, given.building, opened.building)), opened.block.cleared);
}

/** A session keeps 64 edits; the page keeps all. */
async function testManyUndos() {
  const desk = newDesk();
  await desk.plan(example('two_exits'));
  for (let n = 1; n <= 70; n++) await desk.edit({ word: 'rate', names: ['WP1.1', 'DS2.1'], numbers: [n] });
  const cleared = desk.answers.map((answer) => answer.block.cleared);
  assert.equal(cleared.length, 71);
  for (let n = 70; n > 0; n--) {
    await desk.undo();
    assert.equal(desk.current.block.cleared, cleared[n - 1]);
  }
  assert.equal((await desk.edit({ word: 'shutexit', names: ['DS2.1'], numbers: [] })).block.cleared, 8);
}

/** After a stop the edits stand, and the next one begins a session that makes them again. */
async function testStop() {
  const desk = newDesk();
  await desk.plan(example('office'));
  await desk.edit({ word: 'shutexit', names: ['DS2.1'], numbers: [] });
  const waiting = desk.edit({ word: 'rate', names: ['SW1.2', 'LO1.1'], numbers: [5] });
  desk.stop();
  assert.equal((await waiting).kind, 'stopped');
  assert.equal(desk.answers.length, 2);
  assert.equal((await desk.edit({ word: 'rate', names: ['SW1.2', 'LO1.1'], numbers: [8] })).block.cleared, 31);
  const planning = desk.plan(example('tower'));
  desk.stop();
  assert.equal((await planning).kind, 'stopped');
  assert.equal(desk.current.block.cleared, 31);
}

/** A changed number of an answer is found, with its line. */
async function testWrong() {
  const change = (bytes) => Buffer.from(Buffer.from(bytes).toString('latin1').replace('out 27 236', 'out 27 237'), 'latin1');
  const outcome = await newDesk(change).plan(example('office'));
  assert.deepEqual([outcome.kind, outcome.line], ['wrong', 31]);
  const short = await newDesk((bytes) => Buffer.from(Buffer.from(bytes).toString('latin1').replace('most 2', 'most 3'), 'latin1')).plan(example('one_room').replace('horizon 20', 'horizon 1'));
  assert.deepEqual([short.kind, short.line], ['wrong', 3]);
}

/** What a time stands for: both ends of its period, as evacask writes it. No later end is claimed if people come later and a node may be too small. */
async function testTimes() {
  const given = await newDesk().plan(example('office')), theatre = (await newDesk().plan(example('theatre'))).building, office = given.building;
  assert.equal(spanWords(office, 28), '140 to 145 s');
  assert.equal(spanWords(office, measuresOf(given.block).mean), '70 to 75 s');
  assert.equal(momentWords(office, 27), '27 (135 to 140 s)');
  assert.equal(whenWords(office, 28), 'after 140 to 145 s');
  assert.match(spanWords(theatre, 1), /^from \d+ s$/);
  assert.match(whenWords(theatre, 1), /^from \d+ s on$/);
  const way = cutPlaces(office, given.block, 27).find(({ kind }) => kind === 'arc');
  assert.equal(runsWords(office, way.moments), '10 to 120 s');
  assert.equal(runsWords(office, [0, 2, 3, 5, 7, 9]), '0 to 5, 10 to 20, 25 to 30, 35 to 40 s and 1 more span');
  assert.equal(runsWords(office, []), '');
  assert.equal(readBuilding(`#shares 40\n${example('office')}`).shares, 40);
  assert.equal(office.shares, 1);
}

/** A building is made by the tables alone. */
async function testRows() {
  let text = withNode(EMPTY, nextName(rowsOf(EMPTY), 'WP', 1), ['10', '3']);
  text = withNode(text, nextName(rowsOf(text), 'DS', 1), []);
  text = withArc(text, ['WP1.1', 'DS1.1', '1', '2']);
  assert.equal(clearedOf(text), 2);
  text = withNode(text, nextName(rowsOf(text), 'WP', 2), ['8', '8']);
  assert.ok(text.includes('floor 2 Floor 2\n'));
  text = withArc(text, ['WP1.2', 'WP1.1', '3', '1']);
  assert.equal(clearedOf(withSetting(text, 'horizon', '60')), 11);
  assert.equal(clearedOf(withoutNode(text, 'WP1.2')), 2);
  assert.equal(rowsOf(withoutArc(text, 'WP1.2', 'WP1.1')).arcs.length, 1);
  assert.equal(withField('a\nnode  WP1.1 2 3\r\nc', 1, 3, '9'), 'a\nnode WP1.1 2 9\nc');
}

for (const test of [testOffice, testSavedTexts, testManyUndos, testStop, testWrong, testTimes, testRows]) await test();
console.log('sessions of the page: all well');
