/** Asks the program, which runs in a worker. Each run has a worker of its own, so nothing is left of it, and it can be stopped at once. */

/**
 * @typedef {object} Reply
 * @property {'waits' | 'ended' | 'failed' | 'stopped'} state the program waits for a line; it ended; it trapped; it was stopped
 * @property {string} text what it wrote
 * @property {number} status if it ended
 * @property {string} words of the engine, if it failed
 */

/** A run of the program, from whose replies the next one is taken by `next`. */
export class Run {
  /**
   * @param {Worker} worker
   * @param {WebAssembly.Module} module
   * @param {string[]} words
   * @param {string} text the input
   * @param {boolean} isLive whether lines follow
   */
  constructor(worker, module, words, text, isLive) {
    this.worker = worker;
    this.decoder = new TextDecoder();
    /** @type {string[]} */
    this.parts = [];
    /** @type {(reply: Reply) => void} */
    this.hears = () => {};
    this.isOver = false;
    worker.onmessage = ({ data }) => this.hear(data);
    worker.onerror = (event) => this.tell('failed', { words: event.message || 'the worker failed' });
    const input = new TextEncoder().encode(text.endsWith('\n') ? text : `${text}\n`);
    this.opening = this.next();
    worker.postMessage({ module, words, input, isLive });
  }

  /** @returns {Promise<Reply>} */
  next() {
    return new Promise((hears) => {
      this.hears = hears;
    });
  }

  /** @param {{out?: Uint8Array, waits?: true, ended?: number, failed?: string}} told */
  hear(told) {
    if (told.out) this.parts.push(this.decoder.decode(told.out, { stream: true }));
    else if (told.waits) this.tell('waits', {});
    else if (told.failed !== undefined) this.tell('failed', { words: told.failed });
    else this.tell('ended', { status: told.ended });
  }

  /**
   * Hands a reply over.
   * @param {Reply['state']} state
   * @param {{status?: number, words?: string}} more
   */
  tell(state, more) {
    if (this.isOver) return;
    const text = this.parts.join('');
    this.parts = [];
    if (state !== 'waits') {
      this.isOver = true;
      this.worker.terminate();
    }
    this.hears({ state, text, status: more.status ?? 0, words: more.words ?? '' });
  }

  /**
   * Sends a line, and gives the reply.
   * @param {string} line
   */
  ask(line) {
    const reply = this.next();
    this.worker.postMessage({ line: new TextEncoder().encode(`${line}\n`) });
    return reply;
  }

  stop() {
    this.tell('stopped', {});
  }
}
