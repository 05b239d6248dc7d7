// node checker.js PROGRAM: whether the page's checker accepts 300 answers of the program, and refuses 300 changed ones that the program's own `check` refuses.
// Whether the program's `check` accepts another 300 changed ones that this checker accepts is looked at too.
import { spawnSync } from 'node:child_process';
import { readBlock } from '../page/block.js';
import { readBuilding } from '../page/building.js';
import { checkBlock } from '../page/check.js';
import { Fault } from '../page/lines.js';
import { randomBuilding, Random } from './random.js';

const [program] = process.argv.slice(2);
const WANTED = 300;

/** What the page's checker says: null, or the line and why. */
function verdict(text, answer) {
  try {
    const building = readBuilding(text);
    checkBlock(building, readBlock(building, answer));
    return null;
  } catch (error) {
    if (!(error instanceof Fault)) throw error;
    return `line ${error.line}: ${error.message}`;
  }
}

const run = (words, input) => spawnSync(program, words, { input, maxBuffer: 1 << 28 });

/** An answer with one number changed, or a line taken away, doubled or exchanged with the next. */
function changed(answer, random) {
  const lines = answer.trimEnd().split('\n'), at = random.below(lines.length), kind = random.below(8);
  if (kind === 0) lines.splice(at, 1);
  else if (kind === 1) lines.splice(at, 0, lines[at]);
  else if (kind === 2 && at > 0) [lines[at - 1], lines[at]] = [lines[at], lines[at - 1]];
  else {
    const numbers = [...lines[at].matchAll(/(?<= )\d+(?= |$)/g)], one = numbers[random.below(numbers.length || 1)];
    if (!one) return answer;
    const next = Math.max(0, Number(one[0]) + [-2, -1, 1, 2, 7][random.below(5)]);
    lines[at] = lines[at].slice(0, one.index) + next + lines[at].slice(one.index + one[0].length);
  }
  return `${lines.join('\n')}\n`;
}

const counts = { accepted: 0, refused: 0, both: 0 }, wrong = [];
for (let seed = 1; (counts.accepted < WANTED || counts.refused < WANTED) && seed < 4000; seed++) {
  const random = new Random(seed), text = randomBuilding(random), { stdout, status } = run(['solve'], text), answer = String(stdout);
  if (status !== 0) continue;
  const said = verdict(text, answer);
  if (said === null) counts.accepted += 1;
  else wrong.push(`the answer of building ${seed}: ${said}`);
  for (let time = 0; time < 2; time++) {
    const other = changed(answer, random), native = run(['check'], text + other).status === 0, page = verdict(text, other) === null;
    if (native === page) counts[native ? 'both' : 'refused'] += 1;
    else wrong.push(`a changed answer of building ${seed}: the program ${native ? 'accepts' : 'refuses'} it, and the page doesn't`);
  }
}
console.log(`the page's checker: ${counts.accepted} answers accepted, ${counts.refused} changed ones refused as by the program, ${counts.both} harmless changes accepted by both`);
wrong.slice(0, 20).forEach((it) => console.log(`wrong: ${it}`));
process.exitCode = wrong.length || counts.accepted < WANTED || counts.refused < WANTED ? 1 : 0;
