// @ts-check
// The worker in which the program keeps a desk or a board. It never comes back to its events: what it is told comes by the ring.
import { guarded } from "./guard.js";
import { Disk, Stopped } from "./machine.js";
import { open_pool } from "./pool.js";
import { run_over } from "./running.js";

/**
 * With what a station begins.
 * @typedef {object} Beginning
 * @property {SharedArrayBuffer} memory the ring's
 * @property {WebAssembly.Module} module
 * @property {string[]} words
 * @property {Record<string, Uint8Array>} files those that are only read
 * @property {string} store the name of its store
 * @property {string} votes the votes file's path; empty for a board
 * @property {boolean} is_begun whether its votes file was there before
 * @property {boolean} is_traced
 */

const STOPPED = -1;
const KILLED = -2;

/**
 * @param {string} what
 * @param {object} [more]
 */
const tell = (what, more = {}) => postMessage({ what, ...more });

/**
 * The store, with its second place while it is new.
 * @param {Beginning} it
 */
async function store_of({ store, votes, is_begun }) {
  const pool = store ? await open_pool(store) : null;
  if (!pool) return { pool, restored: 0 };
  try {
    const restored = await guarded(pool, store);
    if (is_begun && votes && !pool.paths().includes(votes)) throw new Error("this browser has lost the votes of this match");
    return { pool, restored };
  } catch (why) {
    pool.close();
    throw why;
  }
}

/** @param {Beginning} it */
async function begin(it) {
  const { pool, restored } = await store_of(it);
  if (restored) tell("restored", { count: restored });
  try {
    return run_over(it, new Disk(pool, it.files, it.votes), tell);
  } catch (why) {
    if (why instanceof Stopped) return KILLED;
    throw why;
  } finally {
    pool?.close();
  }
}

onmessage = ({ data }) => {
  begin(data).then(status => tell("ended", { status }), why => tell("ended", { status: STOPPED, why: why.message }));
};
