// node same.js MODULE.wasm PROGRAM LARGE..: whether the module writes the same bytes with the same status as the native program: in every mode on every
// example, on drills, on noise, on wrong words, and on the large buildings.
import { spawnSync } from 'node:child_process';
import fs from 'node:fs';
import path from 'node:path';
import { Host } from '../page/host.js';

const [modulePath, program, ...large] = process.argv.slice(2);
const module = await WebAssembly.compile(fs.readFileSync(modulePath));
const examples = path.join(import.meta.dirname ?? path.dirname(new URL(import.meta.url).pathname), '../../examples');
const EDITS = 'undo\nadvance 3\narrival\nbottlenecks\nexits\nsummary\nclearing\nroutes\ncut 2\nwork\nquit\n';
let same = 0;
const differ = [];

/** What the module writes, and its status; or the engine's words for a trap. */
async function inPage(words, input, isLive) {
  const written = [];
  const host = new Host(words, isLive ? new Uint8Array() : input, isLive, (bytes) => written.push(bytes));
  await host.load(module);
  let status = host.goOn();
  for (const line of isLive ? input.toString('latin1').split(/(?<=\n)/) : []) if (status === null) status = host.give(Buffer.from(line, 'latin1'));
  if (status === null) status = host.give(null);
  return { status, out: Buffer.concat(written) };
}

async function compare(name, words, input, isLive = false) {
  const native = spawnSync(program, words, { input, maxBuffer: 1 << 29 });
  const page = await inPage(words, input, isLive);
  if (native.status === page.status && native.stdout.equals(page.out)) same += 1;
  else differ.push(`${name}: ${words.join(' ')}: ${native.status} and ${page.status}`);
}

for (const file of fs.readdirSync(examples).filter((it) => it.endsWith('.evac'))) {
  const text = fs.readFileSync(path.join(examples, file));
  for (const words of ['solve', 'solve --routes', 'solve --reports', 'solve --routes --reports', 'cards', 'upgrade', 'check', 'nonsense']) await compare(file, words.split(' '), text);
  const block = spawnSync(program, ['solve'], { input: text, maxBuffer: 1 << 29 }).stdout;
  await compare(`${file} and its block`, ['check'], Buffer.concat([text, block]));
  const talk = Buffer.concat([text, Buffer.from(EDITS)]);
  for (const mode of ['session', 'study', 'replan']) {
    await compare(file, [mode], talk);
    await compare(`${file}, line by line`, [mode], talk, true);
  }
}
for (const storeys of ['1', '2', '7', '40', '41']) await compare('drill', ['drill', '--number', storeys], Buffer.alloc(0));
let seed = 1;
const noise = Buffer.from(Array.from({ length: 2000000 }, () => (seed = (Math.imul(seed, 1103515245) + 12345) & 0x7fffffff) >> 16));
await compare('noise', ['solve'], noise);
await compare('noise after a first line', ['solve'], Buffer.concat([Buffer.from('evacplan 2\n'), noise]));
await compare('a long line', ['solve'], Buffer.alloc(5000000, 0x61));
await compare('words that are no text', ['solve', 'ü'], Buffer.alloc(0));
for (const file of large) {
  const text = fs.readFileSync(file);
  await compare(file, ['solve', '--routes', '--reports'], text);
  await compare(file, ['session'], Buffer.concat([text, Buffer.from('bottlenecks\nsummary\n')]), true);
}
console.log(`same bytes as the native program: ${same} of ${same + differ.length} runs`);
differ.forEach((it) => console.log(`differs: ${it}`));
process.exitCode = differ.length ? 1 : 0;
