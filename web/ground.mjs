// @ts-check
// Runs the program's module over the machine's files: node ground.mjs WORDS.. The module is the one within released/book.html, or within
// book.html beside this file.
// Words that read and print work, and `key`. A desk, a board and what else asks for sockets, locks, a terminal or a file to be written anew
// end with status 3 once they do.
import fs from "node:fs";
import { fileURLToPath } from "node:url";
import zlib from "node:zlib";
import { Lacking, has_wide_memory, run } from "./kernel.mjs";
import { narrowed } from "./narrow.mjs";

const NEEDS_MORE = 3;
const PAGES = ["../released/book.html", "book.html"].map(it => fileURLToPath(new URL(it, import.meta.url).href));
const PACKED = /<script id="module"[^>]*>([^<]*)</;

/**
 * Does this again while a stream that doesn't wait has nothing, or no room.
 * @template T
 * @param {() => T} call
 * @returns {T}
 */
function waited(call) {
  for (;;) {
    try {
      return call();
    } catch (why) {
      if (/** @type {{ code?: string }} */ (why).code !== "EAGAIN") throw why;
      Atomics.wait(new Int32Array(new SharedArrayBuffer(4)), 0, 0, 5);
    }
  }
}

/**
 * A file of the machine by its number.
 * @param {number} number
 * @returns {import("./kernel.mjs").OpenFile}
 */
function machine_file(number) {
  return {
    read: count => {
      const got = new Uint8Array(count);
      return got.subarray(0, waited(() => fs.readSync(number, got)));
    },
    write: bytes => waited(() => fs.writeSync(number, bytes)),
    sync: () => fs.fsyncSync(number),
    close: () => fs.closeSync(number),
  };
}

/**
 * The machine's files, and the standard streams.
 * @param {string[]} words
 * @returns {import("./kernel.mjs").Place}
 */
export function machine(words) {
  return {
    words,
    streams: [0, 1, 2].map(machine_file),
    open: path => machine_file(fs.openSync(path, "r")),
    make: (path, rights) => machine_file(fs.openSync(path, "wx", rights)),
    look: (path, is_of_link) => (is_of_link ? fs.lstatSync : fs.statSync)(path, { bigint: true }),
    remove: path => fs.unlinkSync(path),
  };
}

/**
 * The module within a page.
 * @param {string} page
 * @returns {Uint8Array}
 */
export function module_of(page) {
  const packed = PACKED.exec(fs.readFileSync(page, "utf8"));
  if (!packed) throw new Error(`${page} has no module`);
  return zlib.gunzipSync(Buffer.from(packed[1], "base64"));
}

/** @param {string} why */
function say(why) {
  fs.writeSync(2, `ground: ${why}\n`);
  return NEEDS_MORE;
}

function status() {
  const page = PAGES.find(it => fs.existsSync(it));
  if (!page) return say("book.html is not beside this file");
  const module = module_of(page);
  try {
    return run(new WebAssembly.Module(has_wide_memory() ? module : narrowed(module)), machine(process.argv.slice(2)));
  } catch (why) {
    if (!(why instanceof Lacking)) throw why;
    return say(`this word needs the program itself, on Linux: ${why.message}`);
  }
}

if (process.argv[1] && fs.realpathSync(process.argv[1]) === fileURLToPath(import.meta.url)) process.exitCode = status();
