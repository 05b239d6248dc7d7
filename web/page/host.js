/**
 * Runs the program's WebAssembly module: gives it its words and its input, takes its output, and puts it aside while a live input has no byte.
 * A module has one run. Numbers that cross are 64-bit integers, BigInt here, but for asyncify's, which have 32 bits.
 */

/**
 * @typedef {object} Exports what the module exports: its own names, and those of Binaryen's asyncify
 * @property {WebAssembly.Memory} memory
 * @property {() => number} run begins, or goes on; answers the status if it has ended
 * @property {() => bigint} held
 * @property {() => bigint} held_size
 * @property {() => number} asyncify_get_state
 * @property {(at: number) => void} asyncify_start_unwind
 * @property {() => void} asyncify_stop_unwind
 * @property {(at: number) => void} asyncify_start_rewind
 * @property {() => void} asyncify_stop_rewind
 */

const NO_MORE = -1n;
const TOO_LONG = -2n;
const UNWINDING = 1;
const REWINDING = 2;
const utf8 = new TextEncoder();

/** A run of the program. */
export class Host {
  /**
   * @param {string[]} words after the program's name
   * @param {Uint8Array} input
   * @param {boolean} isLive whether more input may come
   * @param {(bytes: Uint8Array) => void} write takes what the program writes
   */
  constructor(words, input, isLive, write) {
    this.words = ['evacplan', ...words].map((word) => utf8.encode(word));
    this.input = input;
    this.at = 0;
    this.isLive = isLive;
    this.write = write;
    /** @type {Exports} */
    this.exports;
  }

  /**
   * Takes the module, with which the run can begin.
   * @param {WebAssembly.Module} module
   */
  async load(module) {
    const imports = { host: { word: this.word.bind(this), read: this.read.bind(this), write: this.take.bind(this) } };
    const instance = await WebAssembly.instantiate(module, imports);
    this.exports = /** @type {Exports} */ (/** @type {unknown} */ (instance.exports));
    new Uint32Array(this.exports.memory.buffer, this.held, 2).set([this.held + 8, this.held + Number(this.exports.held_size())]);
  }

  /** Where the module keeps the stack of a program that waits. */
  get held() {
    return Number(this.exports.held());
  }

  get memory() {
    return new Uint8Array(this.exports.memory.buffer);
  }

  /** Goes on until the program ends, and then gives its status, or until it waits for input, and then gives null. */
  goOn() {
    const status = this.exports.run();
    if (this.exports.asyncify_get_state() !== UNWINDING) return status;
    this.exports.asyncify_stop_unwind();
    return null;
  }

  /**
   * Goes on with more input, or with its end if it is null.
   * @param {Uint8Array | null} input
   */
  give(input) {
    this.input = input ?? new Uint8Array();
    this.at = 0;
    this.isLive = input !== null;
    this.exports.asyncify_start_rewind(this.held);
    return this.goOn();
  }

  /**
   * Puts a word into the memory, and gives its length.
   * @param {bigint} index
   * @param {bigint} into
   * @param {bigint} room
   */
  word(index, into, room) {
    const word = this.words[Number(index)];
    if (!word) return NO_MORE;
    if (word.length > Number(room)) return TOO_LONG;
    this.memory.set(word, Number(into));
    return BigInt(word.length);
  }

  /**
   * Puts the next input into the memory, and gives its length. If there is none yet, the program is put aside, and asks again later.
   * @param {bigint} into
   * @param {bigint} room
   */
  read(into, room) {
    if (this.exports.asyncify_get_state() === REWINDING) this.exports.asyncify_stop_rewind();
    const part = this.input.subarray(this.at, this.at + Number(room));
    if (part.length === 0 && this.isLive) {
      this.exports.asyncify_start_unwind(this.held);
      return 0n;
    }
    this.memory.set(part, Number(into));
    this.at += part.length;
    return BigInt(part.length);
  }

  /**
   * Takes output.
   * @param {bigint} from
   * @param {bigint} length
   */
  take(from, length) {
    this.write(this.memory.slice(Number(from), Number(from) + Number(length)));
    return length;
  }
}
