// @ts-check
// A disk in the browser's private store. Its files are opened before the program begins, since that alone needs promises; their names stand in a
// file of their own, `names`. So to make, name or remove a file is a write and a flush of files that have long been there: a browser may leave
// the names of new files unsynced (docs/DECISIONS.md).
import { failure } from "../kernel.js";

/**
 * A file of the store, which only a worker has open (`FileSystemSyncAccessHandle`).
 * @typedef {object} Handle
 * @property {(into: Uint8Array, how: { at: number }) => number} read
 * @property {(bytes: Uint8Array, how: { at: number }) => number} write
 * @property {(size: number) => void} truncate
 * @property {() => number} getSize
 * @property {() => void} flush
 * @property {() => void} close
 *
 * A file as the program's calls use it. Each may throw a failure of kernel.mjs.
 * @typedef {object} Node
 * @property {() => number} size
 * @property {(at: number, count: number) => Uint8Array} read
 * @property {(bytes: Uint8Array, at: number) => number} write how many were written
 * @property {(size: number) => void} truncate
 * @property {() => void} sync
 * @property {boolean} [is_taken] another page has it open
 */

// Two copies of the names, by turns; of each its length and its sum stand first.
const COPY = 4096;
const HEAD = 8;
const FILES = 8;
// How often a store that another page has open is asked for again, and how long it waits between.
const TIMES = 60;
const BETWEEN = 100;

/**
 * A sum by which a copy that was half written is known (FNV-1a, 32 bits).
 * @param {Uint8Array} bytes
 */
export function sum_of(bytes) {
  return bytes.reduce((sum, byte) => Math.imul(sum ^ byte, 0x01000193), 0x811c9dc5) >>> 0;
}

/**
 * What a call of the store comes to. A full one is ENOSPC, and all else that goes wrong EIO.
 * @template T
 * @param {() => T} call
 * @returns {T}
 */
export function stored(call) {
  try {
    return call();
  } catch (why) {
    throw failure(/** @type {Error} */ (why).name === "QuotaExceededError" ? "ENOSPC" : "EIO");
  }
}

export class Pool {
  /**
   * @param {Handle} names
   * @param {Handle[]} handles
   */
  constructor(names, handles) {
    this.names = names;
    this.handles = handles;
    this.round = 0;
    /** @type {Record<string, number>} */
    this.of = {};
    /**
     * What is done behind each flush.
     * @type {() => void}
     */
    this.flushed = () => undefined;
    this.load();
  }

  /** Which of the two copies is whole, and of the newer round. */
  load() {
    for (const at of [0, COPY]) {
      const head = new Uint8Array(HEAD);
      if (stored(() => this.names.read(head, { at })) < HEAD) continue;
      const view = new DataView(head.buffer);
      const [count, sum] = [view.getUint32(0), view.getUint32(4)];
      if (count === 0 || count > COPY - HEAD) continue;
      const text = new Uint8Array(count);
      if (stored(() => this.names.read(text, { at: at + HEAD })) !== count || sum_of(text) !== sum) continue;
      const found = JSON.parse(new TextDecoder().decode(text));
      if (found.round > this.round) [this.round, this.of] = [found.round, found.of];
    }
  }

  /**
   * Has the files have these names. Where it fails, they have the names that they had.
   * @param {Record<string, number>} of
   */
  rename_all(of) {
    const round = this.round + 1;
    const text = new TextEncoder().encode(JSON.stringify({ round, of }));
    if (text.length > COPY - HEAD) throw failure("ENOSPC");
    const all = new Uint8Array(HEAD + text.length);
    const view = new DataView(all.buffer);
    view.setUint32(0, text.length);
    view.setUint32(4, sum_of(text));
    all.set(text, HEAD);
    if (stored(() => this.names.write(all, { at: (round % 2) * COPY })) !== all.length) throw failure("EIO");
    stored(() => this.names.flush());
    [this.round, this.of] = [round, of];
    this.flushed();
  }

  /**
   * @param {string} path
   * @returns {Node | undefined}
   */
  node(path) {
    if (!Object.hasOwn(this.of, path)) return undefined;
    const handle = this.handles[this.of[path]];
    return {
      size: () => stored(() => handle.getSize()),
      read: (at, count) => {
        const into = new Uint8Array(count);
        return into.subarray(0, stored(() => handle.read(into, { at })));
      },
      // where nothing is written, the file doesn't grow
      write: (bytes, at) => (bytes.length ? stored(() => handle.write(bytes, { at })) : 0),
      truncate: size => stored(() => handle.truncate(size)),
      sync: () => {
        stored(() => handle.flush());
        this.flushed();
      },
    };
  }

  /**
   * Makes a file that is empty, and whose name is on the disk.
   * @param {string} path
   */
  make(path) {
    const used = new Set(Object.values(this.of));
    const free = this.handles.findIndex((_, number) => !used.has(number));
    if (free < 0) throw failure("ENOSPC");
    stored(() => this.handles[free].truncate(0));
    stored(() => this.handles[free].flush());
    this.rename_all({ ...this.of, [path]: free });
  }

  /** @param {string} path */
  remove(path) {
    const { [path]: _, ...left } = this.of;
    this.rename_all(left);
  }

  /**
   * @param {string} from
   * @param {string} to
   */
  rename(from, to) {
    const { [from]: moved, ...left } = this.of;
    this.rename_all({ ...left, [to]: moved });
  }

  /** The names of all files. */
  paths() {
    return Object.keys(this.of);
  }

  /** @param {string} path */
  bytes(path) {
    const node = /** @type {Node} */ (this.node(path));
    return node.read(0, node.size());
  }

  /**
   * All files, whole.
   * @returns {Record<string, Uint8Array>}
   */
  copies() {
    return Object.fromEntries(this.paths().map(path => [path, this.bytes(path)]));
  }

  /**
   * Has these files, where it had none.
   * @param {Record<string, Uint8Array>} files
   */
  restore(files) {
    for (const [path, bytes] of Object.entries(files)) {
      this.make(path);
      const node = /** @type {Node} */ (this.node(path));
      if (node.write(bytes, 0) !== bytes.length) throw failure("EIO");
      node.sync();
    }
  }

  close() {
    for (const it of [this.names, ...this.handles]) it.close();
  }
}

/**
 * Opens the store of this name; nothing where another page has it open. A page that was closed holds it a moment longer.
 * @param {string} name
 * @returns {Promise<Pool | null>}
 */
export async function open_pool(name) {
  const folder = await (await navigator.storage.getDirectory()).getDirectoryHandle(name, { create: true });
  /** @param {string} file */
  const opened = async file => /** @type {any} */ (await folder.getFileHandle(file, { create: true })).createSyncAccessHandle();
  let names = null;
  for (let count = 0; names === null; count++) {
    try {
      names = await opened("names");
    } catch (why) {
      if (/** @type {Error} */ (why).name !== "NoModificationAllowedError") throw why;
      if (count === TIMES) return null;
      await new Promise(resolve => setTimeout(resolve, BETWEEN));
    }
  }
  const handles = [];
  for (let number = 0; number < FILES; number++) handles.push(await opened("file-" + number));
  return new Pool(names, handles);
}

/**
 * The files of a store as they stand, to be handed out: also where no worker has it open.
 * @param {string} name
 */
export async function files_in(name) {
  const folder = await (await navigator.storage.getDirectory()).getDirectoryHandle(name);
  /**
   * @param {string} file
   * @returns {Promise<Handle>}
   */
  const seen = async file => {
    const bytes = new Uint8Array(await (await (await folder.getFileHandle(file)).getFile()).arrayBuffer());
    const refuse = () => { throw failure("EROFS"); };
    const read = (/** @type {Uint8Array} */ into, /** @type {{ at: number }} */ { at }) => {
      const got = bytes.subarray(at, at + into.length);
      into.set(got);
      return got.length;
    };
    return { read, write: refuse, truncate: refuse, getSize: () => bytes.length, flush: refuse, close: () => undefined };
  };
  const names = await seen("names");
  const files = await Promise.all(Array.from({ length: FILES }, (_, number) => seen("file-" + number)));
  return new Pool(names, files).copies();
}
