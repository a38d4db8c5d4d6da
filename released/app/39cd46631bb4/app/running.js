// @ts-check
// A desk or a board over its disk: the program with all that it asks, in a thread that sleeps where it waits.
import { Run, calls_of, imports_of, run_begun } from "../kernel.js";
import { clock_calls, disk_calls, Stopped, waiter } from "./machine.js";
import { KINDS, Ring } from "./ring.js";
import { Sockets, datagram_calls, stream_calls, waiting_calls } from "./sockets.js";

/** @typedef {(what: string, more?: object) => void} Tell tells the page something */

/** What a scorer types. */
class Input {
  /** @param {(milliseconds: number, ask: () => number) => number} wait */
  constructor(wait) {
    this.kind = "in";
    this.wait = wait;
    this.held = new Uint8Array(0);
  }

  has_input() {
    return this.held.length > 0;
  }

  /** @param {Uint8Array} bytes */
  type(bytes) {
    const all = new Uint8Array(this.held.length + bytes.length);
    all.set(this.held);
    all.set(bytes, this.held.length);
    this.held = all;
  }

  /** @param {number} count */
  read(count) {
    this.wait(-1, () => Number(this.has_input()));
    const got = this.held.slice(0, count);
    this.held = this.held.slice(count);
    return got;
  }
}

/**
 * @param {Tell} tell
 * @param {number} which
 */
function told_stream(tell, which) {
  return {
    kind: "out",
    /** @param {Uint8Array} bytes */
    write(bytes) {
      tell("out", { which, bytes: bytes.slice() });
      return bytes.length;
    },
  };
}

/**
 * Runs the program over this disk, and answers its status.
 * @param {Pick<import("./desk.js").Beginning, "memory" | "module" | "words" | "votes" | "is_traced">} it
 * @param {import("./machine.js").Disk} disk
 * @param {Tell} tell
 */
export function run_over(it, disk, tell) {
  /** @type {string[]} */
  const calls = [];
  const note = (/** @type {string} */ call) => { if (it.is_traced) calls.push(call); };
  const ring = new Ring(it.memory);
  /** @type {(milliseconds: number, ask: () => number) => number} */
  const wait = waiter(ring, message => heard(message));
  const input = new Input(wait);
  const streams = /** @type {import("../kernel.js").OpenFile[]} */ ([input, told_stream(tell, 1), told_stream(tell, 2)]);
  const run = new Run(/** @type {any} */ ({ words: it.words, streams }));
  const sockets = new Sockets(run, wait, tell);
  /** @param {{ kind: number, id: number, bytes: Uint8Array }} message */
  const heard = ({ kind, id, bytes }) => {
    if (kind === KINDS.stop) throw new Stopped();
    if (kind === KINDS.type) input.type(bytes);
    if (kind === KINDS.datagram) sockets.take(id, bytes);
    if (kind === KINDS.connect) sockets.connect(id, bytes);
    if (kind === KINDS.hang_up) sockets.hang_up(id);
    if (kind === KINDS.calls) tell("answer", { id, value: calls.splice(0) });
    if (kind === KINDS.file) tell("answer", { id, value: disk.pool && disk.pool.paths().includes(it.votes) ? disk.pool.bytes(it.votes) : null });
  };
  const all = { ...calls_of(run), ...disk_calls(run, disk, note), ...clock_calls(run), ...datagram_calls(run, sockets, note), ...stream_calls(run, sockets), ...waiting_calls(run, sockets) };
  const instance = new WebAssembly.Instance(it.module, imports_of(it.module, all));
  tell("begun");
  return run_begun(run, instance);
}
