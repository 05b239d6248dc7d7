// node --experimental-websocket page.js PAGE PROGRAM SHOTS: the page in the browsers that are here, used by clicks and keys. Each picture goes to SHOTS.
import assert from 'node:assert/strict';
import { spawnSync } from 'node:child_process';
import fs from 'node:fs';
import http from 'node:http';
import path from 'node:path';
import { browsersHere, sleep } from './browsers.js';
import { largestBuilding, randomBuilding, Random, slowBuilding } from './random.js';
import { rulesBroken } from './rules.js';

const [pagePath, program, shots] = process.argv.slice(2).map((it) => path.resolve(it));
const page = `file://${pagePath}`, examples = new URL('../../examples/', import.meta.url).pathname;
const CLICKS = 1000, QUICK_MS = 300, TOWER_MS = 1000;
const IDLE = "!document.body.classList.contains('busy')";

/** The path of a file with a text, for the page to open. */
function fileOf(browser, name, text) {
  const file = path.join(browser.home, name);
  fs.writeFileSync(file, text);
  return file;
}

/** Opens a file by its button. */
async function openFile(browser, file) {
  await browser.value("(document.getElementById('file-name').textContent = '', 1)");
  await browser.openFile('#file', file);
  await browser.until("document.getElementById('file-name').textContent !== ''", 'the file');
}

/** Opens a file, and plans it by a click. Gives the milliseconds from the click to the sentence of the answer, and waits for all of it. */
async function planFile(browser, file) {
  await openFile(browser, file);
  await browser.value(`(() => { let began = 0; window.took = null;
    document.getElementById('plan').addEventListener('click', () => { began = performance.now(); }, { once: true, capture: true });
    const said = new MutationObserver(() => { if (began) { window.said = performance.now() - began; said.disconnect(); } });
    const watch = new MutationObserver(() => { if (began && ${IDLE}) { window.took = performance.now() - began; watch.disconnect(); said.disconnect(); } });
    window.said = null, said.observe(document.getElementById('sentence'), { childList: true }), watch.observe(document.body, { attributes: true }); return 1; })()`);
  await browser.click('#plan');
  await browser.until('window.took !== null', 'the answer', 120000);
  return browser.value('window.said ?? window.took');
}

/** Chooses an exit, a way or a room by keys. */
async function choose(browser, value) {
  await browser.value("(document.getElementById('choice').focus(), 1)");
  for (let time = 0; time < 60 && (await browser.value("document.getElementById('choice').value")) !== value; time++) await browser.press('ArrowDown');
  assert.equal(await browser.value("document.getElementById('choice').value"), value);
}

/** What an engineer does on the first day. */
async function testJourney(browser) {
  const office = fs.readFileSync(path.join(examples, 'office.evac'), 'utf8');
  const took = await planFile(browser, path.join(examples, 'office.evac'));
  assert.equal(await browser.text('#sentence'), 'All 240 people can be out after 140 to 145 seconds.');
  assert.match(await browser.text('#verdict'), /^Checked\./);
  assert.match(await browser.text('#first-parts'), /At most 236 of 240 can be out by moment 27 \(135 to 140 s\)/);
  assert.match(await browser.text('#first-parts'), /SW2\.2 to DS2\.1\s+88\s+10 to 120 s/);
  await browser.shot(path.join(shots, `${browser.name}-office.png`), true);
  await choose(browser, 'DS2.1');
  await browser.click('#change-buttons button');
  await browser.until("document.getElementById('changes') !== null");
  assert.match(await browser.text('#change-words'), /exit DS2\.1 closed.*after 250 to 255 s\. That is 110 s later than before \(140 to 145 s\)\./);
  assert.match(await browser.text('#changes'), /\+110 s/);
  await browser.until(IDLE);
  await browser.value("(document.getElementById('changes-part').scrollIntoView(), 1)");
  await browser.shot(path.join(shots, `${browser.name}-change.png`));
  await browser.click('#save-building');
  const changed = await browser.savedFile('office-changed.evac');
  assert.match(String(spawnSync(program, ['solve'], { input: changed }).stdout), /^cleared 50$/m);
  await choose(browser, 'SW1.2 LO1.1');
  await browser.value("(document.getElementById('rate').focus(), document.getElementById('rate').select(), 1)");
  await browser.type('8');
  await browser.press('Enter');
  await browser.until(`document.querySelectorAll('#changes tbody tr').length === 3 && ${IDLE}`);
  assert.match(await browser.text('#sentence'), /after 155 to 160 seconds/);
  for (const left of ['250 to 255', '140 to 145']) {
    await browser.click('#undo');
    await browser.until(`document.getElementById('sentence').innerText.includes('${left}') && ${IDLE}`);
  }
  assert.equal(await browser.value("document.getElementById('undo').disabled"), true);
  await browser.click('#save-answer');
  const answer = await browser.savedFile('office-answer.txt');
  assert.equal(String(spawnSync(program, ['check'], { input: office + answer }).stdout), 'yes\n');
  await browser.value("(window.printed = 0, window.print = () => { window.printed += 1 }, 1)");
  await browser.click('#print');
  await browser.until('window.printed === 1');
  await browser.value("(window.dispatchEvent(new Event('beforeprint')), 1)");
  assert.match(await browser.value("document.getElementById('printed-text').textContent"), /arc SW2\.2 DS2\.1 4 4/);
  assert.equal(await browser.value("document.querySelectorAll('#parts details:not([open])').length"), 0);
  await browser.value("(window.dispatchEvent(new Event('afterprint')), 1)");
  await browser.pdf(path.join(shots, `${browser.name}-report.pdf`));
  return took;
}

/** An answer that is changed on its way is refused, with its line. */
async function testWrong(browser) {
  await browser.value(`(() => { const own = Object.getOwnPropertyDescriptor(Worker.prototype, 'onmessage'); Object.defineProperty(Worker.prototype, 'onmessage', { configurable: true, set(hears) {
    own.set.call(this, (event) => { const { out } = event.data; if (out) event.data.out = new TextEncoder().encode(new TextDecoder().decode(out).replace('out 27 236', 'out 27 237')); hears(event); }); } }); return 1; })()`);
  await planFile(browser, path.join(examples, 'office.evac'));
  assert.match(await browser.text('#status'), /^Wrong, at line 31 of the answer/);
  assert.equal(await browser.value("document.getElementById('result').hidden"), true);
  await browser.go(page);
}

/** A building that is refused is explained, and the line is shown. */
async function testRefusals(browser) {
  const office = fs.readFileSync(path.join(examples, 'office.evac'), 'utf8');
  await planFile(browser, fileOf(browser, 'odd.evac', office.replace('node HA1.3', 'node HAl.3')));
  assert.match(await browser.text('#status'), /A name was expected/);
  await browser.click('#go-to-line');
  assert.match(await browser.value("(({ value, selectionStart, selectionEnd }) => value.slice(selectionStart, selectionEnd))(document.getElementById('text'))"), /HAl\.3/);
  await planFile(browser, fileOf(browser, 'short.evac', office.replace('horizon 120', 'horizon 20')));
  assert.match(await browser.text('#sentence'), /^At most \d+ of 240 people can be out by moment 20 \(100 to 105 s\)\.$/);
  assert.match(await browser.text('#verdict'), /^Checked\./);
  await planFile(browser, fileOf(browser, 'nobody.evac', 'evacplan 1\nperiod 5\nhorizon 0\nfloor 0 x\nnode DS1.0\nend'));
  assert.equal(await browser.text('#sentence'), 'Nobody is in this building.');
}

/** A building is made by the tables alone, by keys and clicks. */
async function testTables(browser) {
  await browser.click('#new');
  await browser.click('#as-tables');
  await browser.click('#tables form:nth-of-type(1) button');
  await browser.value("(document.getElementById('new-kind').focus(), 1)");
  for (let time = 0; time < 4; time++) await browser.press('ArrowDown');
  await browser.click('#tables form:nth-of-type(1) button');
  await browser.click('#tables form:nth-of-type(2) button');
  await browser.value("(document.querySelector('[aria-label=\"People in WP1.1\"]').focus(), document.querySelector('[aria-label=\"People in WP1.1\"]').select(), 1)");
  await browser.type('12');
  await browser.press('Tab');
  await browser.shot(path.join(shots, `${browser.name}-tables.png`));
  await browser.click('#plan');
  await browser.until(`document.getElementById('sentence').innerText.startsWith('All 12 people') && ${IDLE}`);
  // (12 people, 4 a period, 1 period to walk: the last enter at moment 2)
  assert.equal(await browser.text('#sentence'), 'All 12 people can be out after 15 to 20 seconds.');
  await browser.click('#as-text');
}

/** A stop works at once, and the page goes on. */
async function testStop(browser) {
  await openFile(browser, fileOf(browser, 'slow.evac', slowBuilding()));
  await browser.click('#plan');
  await sleep(700);
  if (await browser.value(IDLE)) return 'the slow building was answered too soon to be stopped';
  const pause = await browser.value("new Promise((done) => { const began = performance.now(); setTimeout(() => done(performance.now() - began), 0) })");
  const took = await browser.value(`new Promise((done) => { const began = performance.now(); new MutationObserver(() => done(performance.now() - began)).observe(document.body, { attributes: true }); setTimeout(() => done(1e6), 5000); document.getElementById('stop').click(); })`);
  if (!/^Stopped/.test(await browser.text('#status'))) return 'the slow building was answered just before it was stopped';
  assert.ok(took < 500, `stop took ${took} ms`);
  await planFile(browser, path.join(examples, 'two_exits.evac'));
  assert.match(await browser.text('#sentence'), /^All 8 people/);
  return `stop in ${took.toFixed(0)} ms, a pause of ${pause.toFixed(0)} ms in the run`;
}

/** The page's policy refuses each way out that it can name: a server on this computer hears of none, and the page is told of each script that is refused. */
async function testPrivate(browser) {
  let heard = 0;
  // (a browser may open a connection ahead of what it then refuses to send, so requests are counted)
  const server = http.createServer((_, reply) => {
    heard += 1;
    reply.end();
  });
  await new Promise((done) => server.listen(0, '127.0.0.1', done));
  const address = `http://127.0.0.1:${server.address().port}/`;
  await fetch(address);
  assert.equal(heard, 1, 'the server hears what is sent');
  const add = (tag, more) => `document.body.append(Object.assign(document.createElement('${tag}'), ${more}))`;
  const ways = {
    fetch: `fetch('${address}').catch(() => 0)`, image: `(new Image().src = '${address}', 0)`, socket: `(() => { try { new WebSocket('${address.replace('http', 'ws')}') } catch { } })()`,
    beacon: `navigator.sendBeacon('${address}', 'x')`, frame: add('iframe', `{ src: '${address}' }`), script: add('script', `{ src: '${address}' }`), inline: add('script', "{ text: 'window.ran = 1' }"),
    style: add('link', `{ rel: 'stylesheet', href: '${address}' }`), events: `(() => { try { new EventSource('${address}') } catch { } })()`,
    form: `(() => { const it = Object.assign(document.createElement('form'), { action: '${address}', method: 'post' }); document.body.append(it); try { it.submit() } catch { } })()`,
  };
  const told = {};
  for (const [name, way] of Object.entries(ways)) {
    told[name] = await browser.value(`new Promise((done) => { document.addEventListener('securitypolicyviolation', (event) => done(event.effectiveDirective), { once: true }); setTimeout(() => done('nothing'), 1000); ${way} })`);
  }
  assert.equal(told.fetch, 'connect-src');
  assert.match(told.inline, /^script-src/);
  assert.equal(await browser.value('window.ran ?? null'), null);
  assert.equal(heard, 1, `something was sent: ${JSON.stringify(told)}`);
  server.closeAllConnections();
  server.close();
  browser.errors = [];
}

/** Texts that would be markup, noise and the limits of the language: no error of a script, and nothing shown as markup. */
async function testHostile(browser) {
  const markup = ['</title></textarea><script>window.ran=1</script>', '"><img src=x onerror="window.ran=1">', '<svg onload=window.ran=1>', '\u202egnorw\u2066', '&lt;b&gt;', "';window.ran=1;//", '\u0007\u001b[2J'];
  const tags = "JSON.stringify([...document.querySelectorAll('script, img, iframe, object, embed, style, b')].map((it) => it.tagName))";
  const before = await browser.value(tags);
  for (const text of markup) {
    const building = `evacplan 1\n# ${text}\ntitle ${text}\nperiod 5\nhorizon 20\nfloor 1 ${text}\nnode WP1.1 10 3\nnode DS1.1\narc WP1.1 DS1.1 1 2\nend\n`;
    await planFile(browser, fileOf(browser, 'hostile.evac', building));
    assert.match(await browser.text('#sentence'), /^All 3 people/);
    assert.equal(await browser.value(tags), before, text);
  }
  for (const text of markup) {
    await planFile(browser, fileOf(browser, '<b>x.evac'.replaceAll('<', '('), `evacplan 1\n${text}\n`));
    assert.match(await browser.text('#status'), /^Line 2: /);
    assert.equal(await browser.value(tags), before, text);
  }
  assert.equal(await browser.value('window.ran ?? null'), null);
  const random = new Random(99), noise = Buffer.from(Array.from({ length: 2000000 }, () => random.below(256)));
  await planFile(browser, fileOf(browser, 'noise.evac', noise));
  assert.match(await browser.text('#status'), /^Line 1: /);
  const largest = await planFile(browser, fileOf(browser, 'largest.evac', largestBuilding()));
  assert.match(await browser.text('#sentence'), /people can be out/);
  for (let seed = 1; seed <= 20; seed++) {
    await planFile(browser, fileOf(browser, 'random.evac', randomBuilding(new Random(seed))));
    assert.match(await browser.text('#verdict'), /^Checked\./);
  }
  return largest;
}

/** Many quick clicks on all buttons but those that save and print. */
async function testClicks(browser) {
  await planFile(browser, path.join(examples, 'office.evac'));
  await browser.value(`(() => { let state = 1; const below = (n) => (state = (Math.imul(state, 1103515245) + 12345) & 0x7fffffff) % n;
    for (let click = 0; click < ${CLICKS}; click++) { const all = [...document.querySelectorAll('button, summary, option')].filter((it) => !/save|print/.test(it.id)), it = all[below(all.length)];
      if (it.tagName === 'OPTION') { it.selected = true; it.closest('select').dispatchEvent(new Event('change')); } else it.click(); } return 1; })()`);
  await browser.until(IDLE);
  for (let click = 0; click < 100; click++) await browser.value(`(() => { const all = [...document.querySelectorAll('#changing button, #plan')]; all[${click} % all.length].click(); return 1; })()`);
  await browser.until(IDLE);
  await planFile(browser, path.join(examples, 'office.evac'));
  assert.match(await browser.text('#sentence'), /140 to 145/);
}

/** The rules of a page that everybody can use, on a screen and on a phone. */
async function testEverybody(browser) {
  for (const [width, height, isPhone] of [[1280, 900, false], [390, 844, true]]) {
    await browser.size(width, height, isPhone);
    await browser.go(page);
    await planFile(browser, path.join(examples, 'office.evac'));
    await choose(browser, 'DS2.1');
    await browser.click('#change-buttons button');
    await browser.until(`document.getElementById('changes') !== null && ${IDLE}`);
    await browser.value('(window.scrollTo(0, 0), 1)');
    await browser.shot(path.join(shots, `${browser.name}-${isPhone ? 'phone' : 'screen'}.png`), true);
    await browser.value("(document.querySelectorAll('details').forEach((it) => { it.open = true }), 1)");
    assert.deepEqual(await rulesBroken(browser), []);
    assert.ok((await browser.value('document.documentElement.scrollWidth')) <= width, `the page is wider than ${width}`);
  }
  await browser.size(1280, 900);
}

async function testAll(browser) {
  await browser.size(1280, 900);
  await browser.go(page);
  const office = await testJourney(browser), tower = await planFile(browser, process.env.TOWER ?? fileOf(browser, 'largest.evac', largestBuilding()));
  await testWrong(browser);
  await testRefusals(browser);
  await testTables(browser);
  const stop = await testStop(browser), largest = await testHostile(browser);
  await testClicks(browser);
  await testEverybody(browser);
  assert.deepEqual(browser.errors, []);
  await testPrivate(browser);
  const slow = office > QUICK_MS || tower > TOWER_MS ? ' (slow: is the machine busy?)' : '';
  console.log(`${browser.version}: all well; office ${office.toFixed(0)} ms, ${process.env.TOWER ? 'tower400' : 'the largest'} ${tower.toFixed(0)} ms, the largest ${largest.toFixed(0)} ms${slow}; ${stop}`);
}

fs.mkdirSync(shots, { recursive: true });
for (const { name, isHere, start } of browsersHere()) {
  if (!isHere) {
    console.log(`left out: ${name} isn't here`);
    continue;
  }
  const browser = await start();
  try {
    await testAll(browser);
  } catch (error) {
    process.exitCode = 1;
    console.log(`${browser.version}: ${error.stack}`);
    console.log(`errors of the page: ${JSON.stringify(browser.errors)}`);
    await browser.shot(path.join(shots, `${browser.name}-failed.png`)).catch(() => 0);
  } finally {
    await browser.close();
  }
}
