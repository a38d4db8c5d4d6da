// @ts-check
// What a page tells the worker in which the program runs. That worker never comes back to its events: it sleeps by `Atomics.wait`, so what it is
// told stands in memory that both share. One writer, the page; one reader, the worker.

/** What is told, by its number. */
export const KINDS = { type: 1, connect: 2, hang_up: 3, datagram: 4, file: 5, calls: 6, stop: 7 };

// Where the words stand: how much was written and read, modulo 2^32, and the bell, which rings at each message.
const WRITTEN = 0;
const READ = 1;
const BELL = 2;
const WORDS = 64;
// A message's head: its kind, a number of its own and how many bytes it has. It takes whole words.
const HEAD = 12;

/** @param {number} count */
const whole_words = count => (count + 3) & ~3;

export class Ring {
  /** The memory of a ring: a power of two of bytes behind its words, so that counts may wrap around. */
  static memory(bytes = 1 << 20) {
    return new SharedArrayBuffer(WORDS + bytes);
  }

  /** @param {SharedArrayBuffer} memory */
  constructor(memory) {
    this.words = new Int32Array(memory, 0, WORDS / 4);
    this.data = new Uint8Array(memory, WORDS);
  }

  /**
   * @param {number} at
   * @param {Uint8Array} bytes
   */
  copy_in(at, bytes) {
    const from = (at >>> 0) % this.data.length;
    const first = Math.min(bytes.length, this.data.length - from);
    this.data.set(bytes.subarray(0, first), from);
    this.data.set(bytes.subarray(first), 0);
  }

  /**
   * @param {number} at
   * @param {number} count
   */
  copy_out(at, count) {
    const from = (at >>> 0) % this.data.length;
    const first = Math.min(count, this.data.length - from);
    const found = new Uint8Array(count);
    found.set(this.data.subarray(from, from + first));
    found.set(this.data.subarray(0, count - first), first);
    return found;
  }

  /** Puts a message in, and rings; nothing, where there is no room. */
  put(/** @type {number} */ kind, id = 0, bytes = new Uint8Array(0)) {
    const at = Atomics.load(this.words, WRITTEN);
    const count = HEAD + whole_words(bytes.length);
    if (this.data.length - ((at - Atomics.load(this.words, READ)) >>> 0) < count) return false;
    this.copy_in(at, new Uint8Array(new Int32Array([kind, id, bytes.length]).buffer));
    this.copy_in((at + HEAD) | 0, bytes);
    Atomics.store(this.words, WRITTEN, (at + count) | 0);
    Atomics.add(this.words, BELL, 1);
    Atomics.notify(this.words, BELL);
    return true;
  }

  /** The next message, if any. */
  take() {
    const at = Atomics.load(this.words, READ);
    if (at === Atomics.load(this.words, WRITTEN)) return null;
    const [kind, id, count] = new Int32Array(this.copy_out(at, HEAD).buffer);
    const bytes = this.copy_out((at + HEAD) | 0, count);
    Atomics.store(this.words, READ, (at + HEAD + whole_words(count)) | 0);
    return { kind, id, bytes };
  }

  /** How often the bell rang. */
  get rung() {
    return Atomics.load(this.words, BELL);
  }

  /**
   * Sleeps until the bell has rung since it had rung so often, or so many milliseconds are over.
   * @param {number} rung
   * @param {number} milliseconds
   */
  sleep(rung, milliseconds) {
    Atomics.wait(this.words, BELL, rung, milliseconds);
  }
}
