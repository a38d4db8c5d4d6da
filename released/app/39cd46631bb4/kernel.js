// @ts-check
// What the program asks of Linux, answered for a browser and for `node`: words, files, standard streams and chance. It is
// trusted, as Linux and its C library are, and no part of what is proved. Numbers are those of 64-bit Linux; an address or
// a size is a BigInt. A call that isn't answered here (a socket, a lock, a terminal) stops the program: see `Lacking`.

/**
 * An open file or a standard stream. Each call may throw an error whose `code` is a name of ERRORS.
 * @typedef {object} OpenFile
 * @property {(count: number) => Uint8Array} [read] at most so many bytes, and none at the end
 * @property {(bytes: Uint8Array) => number} [write] how many were written
 * @property {() => void} [sync] returns once the disk has what was written
 * @property {() => void} [close]
 *
 * What is told of a file, as Linux numbers it; times are nanoseconds since 1970 began.
 * @typedef {object} FileFacts
 * @property {bigint} mode its kind and who may what
 * @property {bigint} size
 * @property {bigint} [nlink]
 * @property {bigint} [uid]
 * @property {bigint} [gid]
 * @property {bigint} [ino]
 * @property {bigint} [dev]
 * @property {bigint} [rdev]
 * @property {bigint} [blksize]
 * @property {bigint} [blocks]
 * @property {bigint} [atimeNs]
 * @property {bigint} [mtimeNs]
 * @property {bigint} [ctimeNs]
 * @property {bigint} [birthtimeNs]
 *
 * What is around the program: its words without its name; standard input, output and errors; how a file is opened to be read, or
 * made new with these rights; what is told of a file, or of a link to one; and how a name is removed.
 * @typedef {object} Place
 * @property {string[]} words
 * @property {OpenFile[]} streams
 * @property {(path: string) => OpenFile} open
 * @property {(path: string, rights: number) => OpenFile} make
 * @property {(path: string, is_of_link: boolean) => FileFacts} look
 * @property {(path: string) => void} remove
 */

/**
 * Linux's numbers of what a file may be refused by.
 * @type {Record<string, number>}
 */
export const ERRORS = {
  EPERM: 1, ENOENT: 2, EINTR: 4, EIO: 5, ENXIO: 6, EBADF: 9, ENOMEM: 12, EACCES: 13, EEXIST: 17, ENOTDIR: 20, EISDIR: 21, EINVAL: 22, ENFILE: 23, EMFILE: 24,
  EFBIG: 27, ENOSPC: 28, ESPIPE: 29, EROFS: 30, EPIPE: 32, ENAMETOOLONG: 36, ELOOP: 40, EDQUOT: 122,
};

/** @param {string} code a name of ERRORS */
export function failure(code) {
  return Object.assign(new Error(code), { code });
}

/** The program asked for a call that isn't answered here. Nothing was done of it. */
export class Lacking extends Error {
  /** @param {string} call */
  constructor(call) {
    super(`it asks for ${call}, which is not here`);
  }
}

// How a file may be opened, but for O_NOCTTY and O_CLOEXEC, which change nothing here: to be read; to be made new and written.
const ANYWAY = 0o400 | 0o2000000;
const TO_READ = 0;
const TO_MAKE = 0o1 | 0o100 | 0o200;
// Where a path begins that isn't whole, and that what a link leads to isn't meant.
const HERE = -100;
const OF_LINK = 0x100;
// A plain file that its owner may read.
const TO_BE_READ = 0o100400n;
// How many bytes are told of a file, and which of it: all but where it is mounted.
export const FACTS = 256n;
const TOLD = 0xfff;
// How many bytes of chance are had at once.
const MOST_CHANCE = 256n;

/** A run of the program: its memory, its words, its open files by their numbers, and the number of the last error. */
export class Run {
  /** @param {Place} place */
  constructor(place) {
    this.place = place;
    this.words = ["ground", ...place.words];
    this.files = new Map(place.streams.map((stream, number) => [number, stream]));
    this.errno = 0;
    /** @type {WebAssembly.Memory | undefined} */
    this.memory = undefined;
  }

  get buffer() {
    if (!this.memory) throw new Error("the program doesn't run yet");
    return this.memory.buffer;
  }

  /**
   * So many bytes of the memory. They are there until the memory grows.
   * @param {bigint} at
   * @param {bigint} count
   */
  bytes(at, count) {
    return new Uint8Array(this.buffer, Number(at), Number(count));
  }

  /**
   * A path: bytes that end before a 0.
   * @param {bigint} at
   */
  text(at) {
    const all = new Uint8Array(this.buffer, Number(at));
    return new TextDecoder("utf-8", { ignoreBOM: true }).decode(all.subarray(0, all.indexOf(0)));
  }

  /**
   * The first of the arguments that a call takes as C's `...`.
   * @param {bigint} more
   */
  first_of(more) {
    return new DataView(this.buffer).getInt32(Number(more), true);
  }

  /**
   * What a call answers; -1 where it is refused, and then the error's number is kept.
   * @param {() => number} call
   */
  tried(call) {
    try {
      return call();
    } catch (why) {
      const number = ERRORS[/** @type {{ code?: string }} */ (why).code ?? ""];
      if (number === undefined) throw why;
      this.errno = number;
      return -1;
    }
  }

  /** @param {number} number */
  file(number) {
    const found = this.files.get(number);
    if (!found) throw failure("EBADF");
    return found;
  }

  /**
   * Gives a file the lowest free number from this one on.
   * @param {OpenFile} file
   */
  add(file, number = 0) {
    while (this.files.has(number)) number++;
    this.files.set(number, file);
    return number;
  }
}

/**
 * Lays out what is told of a file (`struct statx`).
 * @param {DataView} at
 * @param {FileFacts} facts
 */
export function put_facts(at, facts) {
  const whole = (/** @type {number} */ where, /** @type {bigint | undefined} */ value) => at.setBigUint64(where, value ?? 0n, true);
  const half = (/** @type {number} */ where, /** @type {bigint | undefined} */ value) => at.setUint32(where, Number(BigInt.asUintN(32, value ?? 0n)), true);
  half(0, BigInt(TOLD));
  half(4, facts.blksize);
  [facts.nlink, facts.uid, facts.gid].forEach((value, number) => half(16 + 4 * number, value));
  at.setUint16(28, Number(facts.mode), true);
  [facts.ino, facts.size, facts.blocks].forEach((value, number) => whole(32 + 8 * number, value));
  [facts.atimeNs, facts.birthtimeNs, facts.ctimeNs, facts.mtimeNs].forEach((value, number) => {
    const second = 1_000_000_000n;
    const past = BigInt.asIntN(64, value ?? 0n) % second;
    const within = past < 0n ? past + second : past;
    at.setBigInt64(64 + 16 * number, ((value ?? 0n) - within) / second, true);
    half(72 + 16 * number, within);
  });
  [facts.rdev, facts.dev].forEach((value, number) => {
    const device = value ?? 0n;
    half(128 + 8 * number, ((device >> 8n) & 0xfffn) | ((device >> 32n) & 0xfffff000n));
    half(132 + 8 * number, (device & 0xffn) | ((device >> 12n) & 0xffffff00n));
  });
}

/** @typedef {Record<string, (...given: any[]) => number | bigint | void>} Calls */

/**
 * What is asked of words, of signals, of limits and of chance. There is no environment, and no signal comes.
 * @param {Run} run
 * @returns {Calls}
 */
function other_calls(run) {
  return {
    rattle_errno: () => run.errno,
    rattle_set_errno: number => { run.errno = number; },
    // The word's length; -1 where there is none; -2 where it has no room, which then is full.
    rattle_arg: (which, at, room) => {
      if (which >= run.words.length) return -1n;
      const word = new TextEncoder().encode(run.words[Number(which)]);
      run.bytes(at, room).set(word.subarray(0, Number(room)));
      return word.length > room ? -2n : BigInt(word.length);
    },
    rattle_env: () => -1n,
    __sysv_signal: () => 0n,
    getrlimit: (_, at) => {
      run.bytes(at, 16n).fill(0xff);
      return 0;
    },
    getentropy: (at, count) => run.tried(() => {
      if (count > MOST_CHANCE) throw failure("EIO");
      crypto.getRandomValues(run.bytes(at, count));
      return 0;
    }),
  };
}

/**
 * What is asked of files.
 * @param {Run} run
 * @returns {Calls}
 */
function file_calls(run) {
  return {
    open: (path, flags, more) => run.tried(() => {
      const how = flags & ~ANYWAY;
      if (how !== TO_READ && how !== TO_MAKE) throw new Lacking("a file that is read and written");
      return run.add(how === TO_READ ? run.place.open(run.text(path)) : run.place.make(run.text(path), run.first_of(more)));
    }),
    // A second number of an open file, from one on: what is asked of `fcntl` is F_DUPFD_CLOEXEC alone.
    fcntl: (number, _, more) => run.tried(() => run.add(run.file(number), run.first_of(more))),
    close: number => run.tried(() => {
      const closed = run.file(number);
      run.files.delete(number);
      if (![...run.files.values()].includes(closed)) closed.close?.();
      return 0;
    }),
    read: (number, at, count) => BigInt(run.tried(() => {
      const from = run.file(number);
      if (!from.read) throw failure("EBADF");
      const got = from.read(Number(count));
      run.bytes(at, count).set(got);
      return got.length;
    })),
    write: (number, at, count) => BigInt(run.tried(() => {
      const to = run.file(number);
      if (!to.write) throw failure("EBADF");
      return to.write(run.bytes(at, count));
    })),
    statx: (folder, path, how, _, at) => run.tried(() => {
      const name = run.text(path);
      if (folder !== HERE || (how & ~OF_LINK) !== 0) throw new Lacking("what is told of an open file");
      const facts = run.place.look(name, how === OF_LINK);
      run.bytes(at, FACTS).fill(0);
      put_facts(new DataView(run.buffer, Number(at), Number(FACTS)), facts);
      return 0;
    }),
    unlink: path => run.tried(() => {
      run.place.remove(run.text(path));
      return 0;
    }),
    // It is asked of standard input, which is as a pipe here.
    lseek: number => BigInt(run.tried(() => {
      run.file(number);
      throw failure("ESPIPE");
    })),
    fsync: number => run.tried(() => {
      run.file(number).sync?.();
      return 0;
    }),
  };
}

/**
 * All that is answered.
 * @param {Run} run
 * @returns {Calls}
 */
export function calls_of(run) {
  return { ...other_calls(run), ...file_calls(run) };
}

/**
 * What the module asks for: each call that isn't answered here stops it.
 * @param {WebAssembly.Module} module
 * @param {Calls} calls
 */
export function imports_of(module, calls) {
  const asked = WebAssembly.Module.imports(module).map(({ name }) => [name, calls[name] ?? (() => { throw new Lacking(name); })]);
  return { env: Object.fromEntries(asked) };
}

/**
 * Runs the program once in a module that was begun, and answers its status.
 * @param {Run} mine
 * @param {WebAssembly.Instance} instance
 */
export function run_begun(mine, { exports }) {
  mine.memory = /** @type {WebAssembly.Memory} */ (exports.memory);
  return /** @type {() => number} */ (exports.ground_main)();
}

/**
 * Runs the program once, and answers its status.
 * @param {WebAssembly.Module} module
 * @param {Place} place
 */
export function run(module, place) {
  const mine = new Run(place);
  return run_begun(mine, new WebAssembly.Instance(module, imports_of(module, calls_of(mine))));
}

/** Whether there is room for addresses of 64 bits here: a module of one such memory is understood. */
export function has_wide_memory() {
  return WebAssembly.validate(new Uint8Array([0, 97, 115, 109, 1, 0, 0, 0, 5, 3, 1, 4, 1]));
}

/**
 * A file in memory that is read from its start.
 * @param {Uint8Array} held
 * @returns {OpenFile}
 */
function held_file(held) {
  let at = 0;
  return {
    read: count => {
      const got = held.subarray(at, at + count);
      at += got.length;
      return got;
    },
  };
}

/**
 * Files in memory, beside which no other is there, and none is made.
 * @param {string[]} words
 * @param {Record<string, Uint8Array>} files
 * @param {Uint8Array} input
 * @param {Uint8Array[][]} told what is put out, and what is told of errors, in parts
 * @returns {Place}
 */
export function in_memory(words, files, input, told) {
  /** @param {number} which @returns {OpenFile} */
  const stream = which => ({ write: bytes => told[which].push(bytes.slice()) && bytes.length });
  /** @param {string} path */
  const bytes_of = path => {
    if (!Object.hasOwn(files, path)) throw failure("ENOENT");
    return files[path];
  };
  return {
    words,
    streams: [held_file(input), stream(0), stream(1)],
    open: path => held_file(bytes_of(path)),
    make: () => { throw failure("EROFS"); },
    look: path => ({ mode: TO_BE_READ, size: BigInt(bytes_of(path).length) }),
    remove: path => {
      bytes_of(path);
      throw failure("EROFS");
    },
  };
}

/**
 * Runs the program over files in memory.
 * @param {WebAssembly.Module} module
 * @param {string[]} words
 * @param {Record<string, Uint8Array>} files
 * @param {Uint8Array} input
 */
export async function run_in_memory(module, words, files, input = new Uint8Array(0)) {
  /** @type {Uint8Array[][]} */
  const told = [[], []];
  const mine = new Run(in_memory(words, files, input, told));
  // A browser begins a long module in its own time alone.
  const status = run_begun(mine, await WebAssembly.instantiate(module, imports_of(module, calls_of(mine))));
  return { status, output: new Blob(told[0]), errors: new Blob(told[1]) };
}
