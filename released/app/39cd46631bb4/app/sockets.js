// @ts-check
// A desk's or a board's sockets within a page: datagrams go to the page, which has the links, and streams come from it, which shows the station's own
// page. Every station has the address 127.0.0.1 and a port of its own.
import { failure } from "../kernel.js";

/**
 * @typedef {object} Socket
 * @property {"udp" | "fresh" | "listener" | "stream"} kind
 * @property {number} port
 * @property {{ port: number, bytes: Uint8Array }[]} inbox
 * @property {Socket[]} waiting streams that aren't taken yet
 * @property {boolean} has_ended
 * @property {number} came how often something came
 * @property {(bytes: Uint8Array) => number} write
 * @property {() => void} close
 *
 * @typedef {{ of: Map<number, { events: number, data: bigint, is_edge: boolean, seen: number | null }> }} Watched
 */

const LOCAL = [127, 0, 0, 1];
const INTERNET = 2;
const DATAGRAMS = 2;
const READABLE = 1;
const WRITABLE = 4;
const WRONG = 0x20;
const HUNG_UP = 0x2000;
const AT_EDGES = 0x80000000;
const REMOVED = 2;
// How many datagrams wait for the program; what comes then is lost.
const MOST_WAITING = 1024;
const ADDRESS = 16;
const EVENT = 16;

/**
 * @param {Socket["kind"]} kind
 * @returns {Socket}
 */
const socket = kind => ({ kind, port: 0, inbox: [], waiting: [], has_ended: false, came: 0, write: bytes => bytes.length, close: () => undefined });

/** The sockets of a station. */
export class Sockets {
  /**
   * @param {import("../kernel.js").Run} run
   * @param {(milliseconds: number, ask: () => number) => number} wait
   * @param {(what: string, more: object) => void} tell what the page is told
   */
  constructor(run, wait, tell) {
    this.run = run;
    this.wait = wait;
    this.tell = tell;
    /** @type {Socket | null} */
    this.datagrams = null;
    /** @type {Socket | null} */
    this.listener = null;
    /** @type {Map<number, Socket>} */
    this.streams = new Map();
  }

  /**
   * A datagram came, from this port.
   * @param {number} port
   * @param {Uint8Array} bytes
   */
  take(port, bytes) {
    if (!this.datagrams || this.datagrams.inbox.length >= MOST_WAITING) return;
    this.datagrams.inbox.push({ port, bytes });
    this.datagrams.came++;
  }

  /**
   * The page begins a stream, with these bytes.
   * @param {number} id
   * @param {Uint8Array} bytes
   */
  connect(id, bytes) {
    if (!this.listener) return this.tell("gone", { id });
    const made = socket("stream");
    made.inbox.push({ port: 0, bytes });
    made.port = 40_000 + (id % 20_000);
    made.write = sent => {
      this.tell("bytes", { id, bytes: sent.slice() });
      return sent.length;
    };
    made.close = () => {
      if (this.streams.delete(id)) this.tell("gone", { id });
    };
    this.streams.set(id, made);
    this.listener.waiting.push(made);
    this.listener.came++;
  }

  /** @param {number} id */
  hang_up(id) {
    const found = this.streams.get(id);
    if (!found) return;
    found.has_ended = true;
    found.came++;
  }

  /**
   * What a descriptor is ready for.
   * @param {number} number
   * @param {number} events
   * @returns {number}
   */
  ready(number, events) {
    const file = /** @type {any} */ (this.run.files.get(number));
    if (!file) return WRONG;
    const may = {
      in: () => (file.has_input() ? READABLE : 0),
      udp: () => (file.inbox.length ? READABLE : 0) | WRITABLE,
      listener: () => (file.waiting.length ? READABLE : 0),
      stream: () => (file.inbox.length || file.has_ended ? READABLE : 0) | WRITABLE | (file.has_ended ? HUNG_UP : 0),
      epoll: () => ([...file.of].some(([of, it]) => this.run.files.has(of) && this.news(of, it)) ? READABLE : 0),
    }[/** @type {string} */ (file.kind)];
    return (may ? may() : READABLE | WRITABLE) & (events | HUNG_UP);
  }

  /**
   * What is new of a descriptor: at an edge once for all that came.
   * @param {number} number
   * @param {{ events: number, is_edge: boolean, seen: number | null }} it
   * @returns {number}
   */
  news(number, it) {
    if (it.is_edge && it.seen === this.came(number)) return 0;
    return this.ready(number, it.events & 0xffff);
  }

  /** @param {number} number */
  came(number) {
    return /** @type {any} */ (this.run.files.get(number)).came ?? 0;
  }

  /**
   * @param {bigint} at
   * @param {number} port
   */
  put_address(at, port) {
    const bytes = this.run.bytes(at, BigInt(ADDRESS)).fill(0);
    const view = new DataView(bytes.buffer, bytes.byteOffset, ADDRESS);
    view.setUint16(0, INTERNET, true);
    view.setUint16(2, port);
    bytes.set(LOCAL, 4);
  }

  /** @param {bigint} at */
  port_at(at) {
    return new DataView(this.run.buffer, Number(at), ADDRESS).getUint16(2);
  }
}

/**
 * The calls of datagrams.
 * @param {import("../kernel.js").Run} run
 * @param {Sockets} all
 * @param {(call: string) => void} note
 * @returns {import("../kernel.js").Calls}
 */
export function datagram_calls(run, all, note) {
  const of = (/** @type {number} */ number) => /** @type {Socket} */ (/** @type {unknown} */ (run.file(number)));
  const size_of_address = (/** @type {bigint} */ at) => new DataView(run.buffer).setUint32(Number(at), ADDRESS, true);
  return {
    socket: (_, type) => run.add(/** @type {any} */ (socket((type & 15) === DATAGRAMS ? "udp" : "fresh"))),
    bind: (number, at) => run.tried(() => {
      const found = of(number);
      found.port = all.port_at(at);
      if (found.kind === "udp") all.datagrams = found;
      return 0;
    }),
    setsockopt: () => 0,
    rattle_set_nonblocking: () => 0,
    getsockname: (number, at, size) => run.tried(() => {
      all.put_address(at, of(number).port);
      size_of_address(size);
      return 0;
    }),
    sendto: (number, at, count, _, to) => BigInt(run.tried(() => {
      note("sendto");
      all.tell("datagram", { from: of(number).port, to: all.port_at(to), bytes: run.bytes(at, count).slice() });
      return Number(count);
    })),
    recvfrom: (number, at, count, _, from, size) => BigInt(run.tried(() => {
      const next = of(number).inbox.shift();
      if (!next) throw failure("EAGAIN");
      const got = next.bytes.subarray(0, Number(count));
      run.bytes(at, BigInt(got.length)).set(got);
      if (from) {
        all.put_address(from, next.port);
        size_of_address(size);
      }
      return got.length;
    })),
  };
}

/**
 * The calls of streams: the station's own web server, which the page alone asks.
 * @param {import("../kernel.js").Run} run
 * @param {Sockets} all
 * @returns {import("../kernel.js").Calls}
 */
export function stream_calls(run, all) {
  const of = (/** @type {number} */ number) => /** @type {Socket} */ (/** @type {unknown} */ (run.file(number)));
  return {
    listen: number => run.tried(() => {
      all.listener = of(number);
      all.listener.kind = "listener";
      all.tell("listens", {});
      return 0;
    }),
    accept4: (number, at, size) => run.tried(() => {
      const next = of(number).waiting.shift();
      if (!next) throw failure("EAGAIN");
      if (at) {
        all.put_address(at, next.port);
        new DataView(run.buffer).setUint32(Number(size), ADDRESS, true);
      }
      return run.add(next);
    }),
    recv: (number, at, count) => BigInt(run.tried(() => {
      const from = of(number);
      if (from.inbox.length === 0) {
        if (from.has_ended) return 0;
        throw failure("EAGAIN");
      }
      const [first] = from.inbox;
      const got = first.bytes.subarray(0, Number(count));
      first.bytes = first.bytes.subarray(got.length);
      if (first.bytes.length === 0) from.inbox.shift();
      run.bytes(at, BigInt(got.length)).set(got);
      return got.length;
    })),
    send: (number, at, count) => BigInt(run.tried(() => of(number).write(run.bytes(at, count)))),
    shutdown: number => run.tried(() => {
      of(number).close();
      return 0;
    }),
  };
}

/**
 * The calls that wait for one of several.
 * @param {import("../kernel.js").Run} run
 * @param {Sockets} all
 * @returns {import("../kernel.js").Calls}
 */
export function waiting_calls(run, all) {
  const watched = (/** @type {number} */ number) => /** @type {Watched} */ (/** @type {unknown} */ (run.file(number))).of;
  return {
    poll: (at, count, milliseconds) => all.wait(milliseconds, () => {
      const view = new DataView(run.buffer, Number(at));
      let found = 0;
      for (let number = 0; number < Number(count); number++) {
        const descriptor = view.getInt32(8 * number, true);
        const got = descriptor < 0 ? 0 : all.ready(descriptor, view.getInt16(8 * number + 4, true));
        view.setInt16(8 * number + 6, got, true);
        if (got) found++;
      }
      return found;
    }),
    epoll_create1: () => run.add(/** @type {any} */ ({ kind: "epoll", of: new Map() })),
    rattle_epoll_ctl: (number, what, descriptor, events, data) => run.tried(() => {
      if (what === REMOVED) watched(number).delete(descriptor);
      else watched(number).set(descriptor, { events, data, is_edge: (events & AT_EDGES) !== 0, seen: null });
      return 0;
    }),
    rattle_epoll_wait: (number, at, most, milliseconds) => BigInt(all.wait(milliseconds, () => {
      const view = new DataView(run.buffer, Number(at));
      let found = 0;
      for (const [descriptor, it] of watched(number)) {
        const got = run.files.has(descriptor) ? all.news(descriptor, it) : 0;
        if (!run.files.has(descriptor)) watched(number).delete(descriptor);
        if (!got || found >= Number(most)) continue;
        it.seen = all.came(descriptor);
        view.setUint32(EVENT * found, got, true);
        view.setBigUint64(EVENT * found + 8, BigInt.asUintN(64, it.data), true);
        found++;
      }
      return found;
    })),
  };
}
