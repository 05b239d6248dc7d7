// node run.js MODULE.wasm WORDS.. <INPUT: the program as the page runs it, with all of its input at hand.
import fs from 'node:fs';
import { Host } from '../page/host.js';

const [path, ...words] = process.argv.slice(2);
const written = [];
const host = new Host(words, fs.readFileSync(0), false, (bytes) => written.push(bytes));
await host.load(await WebAssembly.compile(fs.readFileSync(path)));
const status = host.goOn();
process.stdout.write(Buffer.concat(written), () => process.exit(status));
