// node heap.js HEAP.wasm: 200,000 random calls of the heap, of which no two blocks overlap, each keeps its bytes, and each is aligned to 16; and 200,000
// products of 128 bits against BigInt.
import fs from 'node:fs';
import { Random } from './random.js';

const CALLS = 200000, MOST_BLOCKS = 600;
const heap = new WebAssembly.Instance(new WebAssembly.Module(fs.readFileSync(process.argv[2])), {}).exports;
const random = new Random(12345), blocks = [];
const bytes = () => new Uint8Array(heap.memory.buffer);
const size = () => random.below([40, 300, 5000, 200000][random.below(4)]);

function want(holds, what) {
  if (!holds) throw new Error(what);
}

function put(block) {
  bytes().fill(block.mark, block.at, block.at + block.size);
}

/** Whether the first bytes of a block are as they were put: of a large one, every 61st and the last. */
function keeps({ at, mark }, size) {
  const memory = bytes(), step = size > 4096 ? 61 : 1;
  for (let place = 0; place < size; place += step) if (memory[at + place] !== mark) return false;
  return size === 0 || memory[at + size - 1] === mark;
}

function take() {
  const count = size(), at = Number(heap.heap_take(BigInt(count)));
  want(at > 0 && at % 16 === 0, `a block at ${at}`);
  const block = { at, size: count, mark: 1 + random.below(255) };
  put(block);
  blocks.push(block);
}

function free(place) {
  heap.heap_free(BigInt(blocks[place].at));
  blocks[place] = blocks.at(-1);
  blocks.pop();
}

function resize(block) {
  const count = size(), at = Number(heap.heap_resize(BigInt(block.at), BigInt(count)));
  want(at > 0 && at % 16 === 0, `a block at ${at}`);
  block.at = at;
  want(keeps(block, Math.min(count, block.size)), 'a block that is resized loses bytes');
  block.size = count;
  put(block);
}

function wantApart() {
  const sorted = [...blocks].sort((a, b) => a.at - b.at);
  want(sorted.every((it, at) => at === 0 || sorted[at - 1].at + sorted[at - 1].size <= it.at), 'two blocks overlap');
}

for (let call = 0; call < CALLS; call++) {
  const kind = random.below(5), place = random.below(blocks.length || 1);
  if (kind < 2 || blocks.length < 3) take();
  else {
    want(keeps(blocks[place], blocks[place].size), 'a block loses bytes');
    if (kind < 4 - (blocks.length > 500) || blocks.length > MOST_BLOCKS) free(place);
    else resize(blocks[place]);
  }
  if (call % 20000 === 0) wantApart();
}
blocks.forEach((block) => want(keeps(block, block.size), 'a block loses bytes'));
want(Number(heap.heap_take(1n << 45n)) === 0, 'room that no memory has is given');

const low = (1n << 64n) - 1n, all = (1n << 128n) - 1n, into = heap.heap_take(16n);
/** A number of 128 bits, often near 0 or near the greatest. */
const wide = () => {
  const number = Array.from({ length: 4 }, () => BigInt(random.below(2 ** 32))).reduce((sum, it) => (sum << 32n) | it, 0n);
  return [number, number >> 64n, all - (number >> 100n)][random.below(3)];
};
for (let call = 0; call < CALLS; call++) {
  const a = wide(), b = wide();
  heap.__multi3(into, a & low, a >> 64n, b & low, b >> 64n);
  const view = new DataView(heap.memory.buffer), product = view.getBigUint64(Number(into), true) | (view.getBigUint64(Number(into) + 8, true) << 64n);
  want(product === ((a * b) & all), `${a} times ${b}`);
}
console.log(`the heap: ${CALLS} calls and ${CALLS} products are right`);
