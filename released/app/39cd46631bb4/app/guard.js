// @ts-check
// While a store is new the names of its files may not be on the disk yet: each flush then has a second place, a database whose commit is on the
// disk once it is told. A worker of its own makes it (guard-worker.mjs), while the one in which the program runs waits.
import { failure } from "../kernel.js";

// How long a store is new: a browser's own log of names is written by Linux after half that time.
export const NEW = 60_000;
const LONGEST = 10_000;
export const ANSWERS = { waiting: 0, done: 1, failed: 2 };

/**
 * What the second place has of a store: when the store was made, and its files.
 * @typedef {{ born: number, files: Record<string, Uint8Array> }} Held
 */

export class Guard {
  /**
   * @param {import("./pool.js").Pool} pool
   * @param {string} name
   * @param {Worker} worker
   * @param {Int32Array} answer
   * @param {number} born
   */
  constructor(pool, name, worker, answer, born) {
    this.pool = pool;
    this.name = name;
    this.worker = worker;
    this.answer = answer;
    this.born = born;
    pool.flushed = () => this.keep();
  }

  /** @param {object} what */
  tell(what) {
    Atomics.store(this.answer, 0, ANSWERS.waiting);
    this.worker.postMessage({ name: this.name, ...what });
    Atomics.wait(this.answer, 0, ANSWERS.waiting, LONGEST);
    if (Atomics.load(this.answer, 0) !== ANSWERS.done) throw failure("EIO");
  }

  /**
   * Has the second place have what the store has; once that is no longer new, nothing. Where it can't be emptied no vote is taken: what stayed
   * there would be given back for a store that is lost later, without its later votes.
   */
  keep() {
    const is_new = Date.now() - this.born < NEW;
    this.tell(is_new ? { held: { born: this.born, files: this.pool.copies() } } : { is_erased: true });
    if (is_new) return;
    this.pool.flushed = () => undefined;
    this.worker.terminate();
  }
}

/**
 * Guards a store that is new. It answers how many files it gave back to one that has lost its names.
 * @param {import("./pool.js").Pool} pool
 * @param {string} name
 */
export async function guarded(pool, name) {
  const worker = new Worker(new URL("guard-worker.js", import.meta.url), { type: "module" });
  const answer = new Int32Array(new SharedArrayBuffer(4));
  /** @type {Held | undefined} */
  const held = await new Promise((resolve, reject) => {
    worker.onmessage = ({ data }) => ("failed" in data ? reject(new Error(data.failed)) : resolve(data.held));
    worker.onerror = () => reject(new Error("the second place of a new store can't be opened"));
    worker.postMessage({ opened: name, answer });
  });
  worker.onmessage = null;
  const was_there = pool.round > 0;
  if (was_there && !held) {
    worker.terminate();
    return 0;
  }
  const guard = new Guard(pool, name, worker, answer, held ? held.born : Date.now());
  const is_lost = held !== undefined && !was_there;
  // What is given back is guarded as what is new is.
  if (is_lost) guard.born = Date.now();
  pool.flushed = () => undefined;
  if (is_lost) pool.restore(held.files);
  pool.flushed = () => guard.keep();
  guard.keep();
  return is_lost ? Object.keys(held.files).length : 0;
}
