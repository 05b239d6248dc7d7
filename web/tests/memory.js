// node memory.js MODULE.wasm BUILDING: with too little memory the program ends with status 5 and no byte, with enough it answers as ever, and nothing is between.
import { spawnSync } from 'node:child_process';
import fs from 'node:fs';

const [module, building] = process.argv.slice(2);
const input = fs.readFileSync(building), runner = new URL('run.js', import.meta.url).pathname;
const run = (pages) => spawnSync('node', [`--wasm-max-mem-pages=${pages}`, runner, module, 'solve'], { input, maxBuffer: 1 << 28 });
const whole = run(65536), ends = [];
for (const pages of [30, 200, 500, 800, 3000]) {
  const { status, stdout } = run(pages), isRight = status === 5 ? stdout.length === 0 : status === whole.status && stdout.equals(whole.stdout);
  ends.push(status);
  if (!isRight) throw new Error(`with ${pages} pages: status ${status} and ${stdout.length} bytes`);
}
if (!ends.includes(5) || !ends.includes(whole.status)) throw new Error(`no run lacked memory, or all did: ${ends}`);
console.log(`want of memory: statuses ${ends.join(', ')}, and no half answer`);
