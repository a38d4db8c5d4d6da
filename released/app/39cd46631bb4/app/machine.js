// @ts-check
// What a desk or a board asks of Linux beyond what a word asks that reads and prints (kernel.mjs): files that are written at a place, made, named and
// removed, what is told of them, and waits. It is trusted, as Linux is. Sockets stand in sockets.mjs.
import { ERRORS, FACTS, failure, put_facts } from "../kernel.js";

/** @typedef {import("./pool.js").Node & { number: number }} Numbered a file, and by which number it is known to be itself */

// How a file is opened: made where it is not there, new alone, and emptied.
const MAKE = 0o100;
const NEW = 0o200;
const EMPTIED = 0o1000;
// Kinds of files, with what their owner may.
const PLAIN = 0o100600n;
const FOLDER = 0o40755n;
const DEVICE = 0o20600n;
const FIRST = 100;
const NANOSECONDS = 1_000_000n;
// What else may be refused by: nothing is there yet, or it is no terminal.
Object.assign(ERRORS, { EAGAIN: 11, ENOTTY: 25 });
const STREAMS = new Map([["/dev/stdin", 0], ["/dev/stdout", 1], ["/dev/stderr", 2]]);

/** The page goes: the program stops where it waits, as at a kill. */
export class Stopped extends Error {}

/**
 * A path from the top, without `.` and `..`.
 * @param {string} path
 */
export function whole_path(path) {
  /** @type {string[]} */
  const parts = [];
  for (const it of path.split("/")) {
    if (it === "..") parts.pop();
    else if (it && it !== ".") parts.push(it);
  }
  return "/" + parts.join("/");
}

/**
 * A file in memory that is only read.
 * @param {Uint8Array} bytes
 * @returns {import("./pool.js").Node}
 */
export function read_only(bytes) {
  const refuse = () => { throw failure("EROFS"); };
  return { size: () => bytes.length, read: (at, count) => bytes.subarray(at, at + count), write: refuse, truncate: refuse, sync: () => undefined };
}

/**
 * A disk that another page has: its votes file is there, and locked.
 * @returns {import("./pool.js").Node}
 */
function taken() {
  return { ...read_only(new Uint8Array(0)), is_taken: true };
}

/** The files around the program: those in memory, and those of the store. */
export class Disk {
  /**
   * @param {import("./pool.js").Pool | null} pool nothing where another page has it
   * @param {Record<string, Uint8Array>} held
   * @param {string} votes the votes file's path
   */
  constructor(pool, held, votes) {
    this.pool = pool;
    const nodes = Object.entries(held).map(([path, bytes]) => [path, read_only(bytes)]);
    /** @type {Map<string, Numbered>} */
    this.held = new Map(nodes.map(([path, node], number) => [/** @type {string} */ (path), { .../** @type {any} */ (node), number }]));
    if (!pool && votes) this.held.set(votes, { ...taken(), number: this.held.size });
  }

  /**
   * @param {string} path
   * @returns {Numbered | undefined}
   */
  find(path) {
    const node = this.held.get(path) ?? this.pool?.node(path);
    if (!node) return undefined;
    return "number" in node ? /** @type {Numbered} */ (node) : { ...node, number: FIRST + /** @type {import("./pool.js").Pool} */ (this.pool).of[path] };
  }

  /**
   * @param {string} path
   * @returns {Numbered}
   */
  existing(path) {
    const found = this.find(path);
    if (!found) throw failure("ENOENT");
    return found;
  }

  /**
   * The store, where a file of it may be changed.
   * @param {string} path
   */
  store_of(path) {
    if (!this.pool || this.held.has(path)) throw failure("EROFS");
    return this.pool;
  }

  /**
   * @param {string} path
   * @param {number} flags
   * @returns {Numbered}
   */
  opened(path, flags) {
    if (this.find(path) && (flags & MAKE) && (flags & NEW)) throw failure("EEXIST");
    if (!this.find(path)) {
      if (!(flags & MAKE) || path.startsWith("/proc/")) throw failure("ENOENT");
      this.store_of(path).make(path);
    }
    const found = this.existing(path);
    if (flags & EMPTIED) found.truncate(0);
    return found;
  }
}

/**
 * An open file, read and written from its place on.
 * @param {Numbered} node
 */
function open_file(node) {
  return {
    kind: "file",
    node,
    at: 0,
    /** @param {number} count */
    read(count) {
      const got = node.read(this.at, count);
      this.at += got.length;
      return got;
    },
    /** @param {Uint8Array} bytes */
    write(bytes) {
      const count = node.write(bytes, this.at);
      this.at += count;
      return count;
    },
    sync: () => node.sync(),
  };
}

const open_folder = () => ({ kind: "folder", read: () => { throw failure("EISDIR"); } });

/**
 * The calls of files.
 * @param {import("../kernel.js").Run} run
 * @param {Disk} disk
 * @param {(call: string) => void} note what is told of a call that writes, syncs or sends
 * @returns {import("../kernel.js").Calls}
 */
export function disk_calls(run, disk, note) {
  const path_at = (/** @type {bigint} */ at) => whole_path(run.text(at));
  return {
    open: (path, flags) => run.tried(() => {
      const at = path_at(path);
      const stream = STREAMS.get(at);
      if (stream !== undefined) return run.add(run.file(stream));
      return run.add(/** @type {any} */ (at === "/" ? open_folder() : open_file(disk.opened(at, flags))));
    }),
    ...open_calls(run, note),
    ...told_calls(run, disk, path_at),
    unlink: path => run.tried(() => {
      const name = path_at(path);
      disk.existing(name);
      disk.store_of(name).remove(name);
      return 0;
    }),
    rename: (from, to) => run.tried(() => {
      const [old, name] = [path_at(from), path_at(to)];
      disk.existing(old);
      disk.store_of(name);
      disk.store_of(old).rename(old, name);
      return 0;
    }),
  };
}

/**
 * The calls of files that are open.
 * @param {import("../kernel.js").Run} run
 * @param {(call: string) => void} note
 * @returns {import("../kernel.js").Calls}
 */
function open_calls(run, note) {
  const file_of = (/** @type {number} */ number) => /** @type {any} */ (run.file(number));
  /**
   * @param {number} number
   * @returns {Numbered}
   */
  const node_of = number => {
    const { node } = file_of(number);
    if (!node) throw failure("EINVAL");
    return node;
  };
  /** @param {number} number */
  const sync = number => run.tried(() => {
    note("fsync");
    file_of(number).sync?.();
    return 0;
  });
  return {
    pwrite: (number, at, count, where) => BigInt(run.tried(() => {
      note("pwrite");
      return node_of(number).write(run.bytes(at, count), Number(where));
    })),
    ftruncate: (number, size) => run.tried(() => {
      note("ftruncate");
      node_of(number).truncate(Number(size));
      return 0;
    }),
    fsync: sync,
    fdatasync: sync,
    fchmod: () => 0,
    fchown: () => 0,
    flock: number => run.tried(() => {
      if (file_of(number).node?.is_taken) throw failure("EAGAIN");
      return 0;
    }),
    lseek: (number, offset, how) => BigInt(run.tried(() => {
      const file = file_of(number);
      if (!file.node) throw failure("ESPIPE");
      file.at = Number(offset) + [0, file.at, file.node.size()][how];
      return file.at;
    })),
  };
}

/**
 * The calls that tell of files.
 * @param {import("../kernel.js").Run} run
 * @param {Disk} disk
 * @param {(at: bigint) => string} path_at
 * @returns {import("../kernel.js").Calls}
 */
function told_calls(run, disk, path_at) {
  const is_folder = (/** @type {string} */ path) => path === "/";
  /**
   * @param {bigint} at
   * @param {bigint} mode
   * @param {number} number
   * @param {number} size
   */
  const put = (at, mode, number, size) => {
    run.bytes(at, FACTS).fill(0);
    const facts = { mode, size: BigInt(size), nlink: 1n, ino: BigInt(number), dev: 1n, blksize: 4096n, blocks: BigInt((size + 511) >> 9) };
    put_facts(new DataView(run.buffer, Number(at), Number(FACTS)), facts);
    return 0;
  };
  return {
    statx: (number, path, _, __, at) => run.tried(() => {
      const name = run.text(path);
      if (name === "") {
        const { node, kind } = /** @type {any} */ (run.file(number));
        return node ? put(at, PLAIN, node.number, node.size()) : put(at, kind === "folder" ? FOLDER : DEVICE, 2, 0);
      }
      if (is_folder(whole_path(name))) return put(at, FOLDER, 1, 0);
      const node = disk.existing(whole_path(name));
      return put(at, PLAIN, node.number, node.size());
    }),
    realpath: (path, to) => {
      const name = path_at(path);
      if (!is_folder(name) && !disk.find(name)) {
        run.errno = ERRORS.ENOENT;
        return 0n;
      }
      const text = new TextEncoder().encode(name + "\0");
      run.bytes(to, BigInt(text.length)).set(text);
      return to;
    },
  };
}

/**
 * Waits: what comes from the page is taken, and the worker sleeps until its bell rings.
 * @param {import("./ring.js").Ring} ring
 * @param {(message: { kind: number, id: number, bytes: Uint8Array }) => void} heard
 */
export function waiter(ring, heard) {
  /**
   * Asks until something is so, or so many milliseconds are over; for ever below 0.
   * @param {number} milliseconds
   * @param {() => number} ask
   */
  return (milliseconds, ask) => {
    const end = milliseconds < 0 ? Infinity : performance.now() + milliseconds;
    for (;;) {
      const rung = ring.rung;
      for (let it = ring.take(); it; it = ring.take()) heard(it);
      const found = ask();
      const left = end - performance.now();
      if (found || left <= 0) return found;
      ring.sleep(rung, left);
    }
  };
}

/**
 * The clock: of the day by 0, else one that only goes forward.
 * @param {import("../kernel.js").Run} run
 * @returns {import("../kernel.js").Calls}
 */
export function clock_calls(run) {
  const second = 1_000_000_000n;
  return {
    clock_gettime: (which, at) => {
      const milliseconds = which === 0 ? Date.now() : performance.now() + 1000;
      const past = BigInt(Math.floor(milliseconds * 1000)) * NANOSECONDS / 1000n;
      const view = new DataView(run.buffer, Number(at), 16);
      view.setBigInt64(0, past / second, true);
      view.setBigInt64(8, past % second, true);
      return 0;
    },
    isatty: () => run.tried(() => { throw failure("ENOTTY"); }),
  };
}

