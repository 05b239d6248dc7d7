/**
 * The program in a thread of its own. The page begins it by {module, words, input, isLive}, and goes on by {line}, with null for the end of the input.
 * It tells {out}, bytes as they are written; {waits}, when all that it heard is answered; {ended}, its status; {failed}, the engine's words for a trap.
 */
import { Host } from './host.js';

/** @type {Host} */
let host;

/**
 * Tells how far the program went.
 * @param {() => number | null} go
 */
function tell(go) {
  try {
    const status = go();
    postMessage(status === null ? { waits: true } : { ended: status });
  } catch (error) {
    postMessage({ failed: String(error) });
  }
}

/** @param {{words: string[], input: Uint8Array, isLive: boolean, module: WebAssembly.Module}} told */
async function begin({ words, input, isLive, module }) {
  host = new Host(words, input, isLive, (bytes) => postMessage({ out: bytes }, { transfer: [bytes.buffer] }));
  try {
    await host.load(module);
  } catch (error) {
    postMessage({ failed: String(error) });
    return;
  }
  tell(() => host.goOn());
}

onmessage = ({ data }) => {
  if (data.module) begin(data);
  else tell(() => host.give(data.line));
};
