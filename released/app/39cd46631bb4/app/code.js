// @ts-check
// The codes that two tablets show each other (docs/FORMATS.md, "Codes of the app"): what joins them to a match, or joins them again.
import { Reader, Unfit, packed_reachable, reachable_of } from "./description.js";

/** @typedef {import("./description.js").Reachable} Reachable */

/**
 * A code. An invitation has the match's sheet and key as well; an answer names the offer that it answers.
 * @typedef {object} Code
 * @property {"invitation" | "offer" | "answer"} kind
 * @property {string} from the station that shows it: `a`, `b`, `1` or `2`
 * @property {string} to the one that reads it
 * @property {string} match 16 hex digits, of the sheet and the key
 * @property {string} offer 8 hex digits of chance, by which an answer finds its offer
 * @property {Reachable} way
 * @property {string} [sheet]
 * @property {string} [key]
 */

const VERSION = 1;
const KINDS = /** @type {Code["kind"][]} */ (["invitation", "offer", "answer"]);
const STATIONS = ["a", "b", "1", "2"];
const SUM = 4;
const MATCH = 8;
const OFFER = 4;
const LETTERS = "ABCDEFGHIJKLMNOPQRSTUVWXYZ234567";
// A code has some 1,000 letters; what is longer is none.
const LONGEST = 8192;
const LARGEST = 32768;

/** @param {Uint8Array} bytes */
const hex_of = bytes => [...bytes].map(it => it.toString(16).padStart(2, "0")).join("");
/** @param {string} hex */
const bytes_of_hex = hex => (hex.match(/../g) ?? []).map(it => parseInt(it, 16));

/** @param {Uint8Array} bytes */
async function hash_of(bytes) {
  return new Uint8Array(await crypto.subtle.digest("SHA-256", /** @type {any} */ (bytes)));
}

/**
 * By what a match is known: its sheet and its key.
 * @param {string} sheet
 * @param {string} key
 */
export async function match_of(sheet, key) {
  return hex_of((await hash_of(new TextEncoder().encode(sheet + "\0" + key))).subarray(0, MATCH));
}

/** A new offer's number. */
export const new_offer = () => hex_of(crypto.getRandomValues(new Uint8Array(OFFER)));

/**
 * Bytes through a stream that makes them smaller or large again, but not larger than a code can be.
 * @param {Uint8Array} bytes
 * @param {any} through
 */
async function through(bytes, through) {
  const reader = new Blob([/** @type {any} */ (bytes)]).stream().pipeThrough(through).getReader();
  /** @type {number[]} */
  const all = [];
  for (let it = await reader.read(); !it.done; it = await reader.read()) {
    if (all.length + it.value.length > LARGEST) throw new Unfit("this is no code of a match");
    for (const byte of it.value) all.push(byte);
  }
  return new Uint8Array(all);
}

/**
 * Bytes as letters that a square takes few modules for: five bits each.
 * @param {Uint8Array} bytes
 */
export function letters_of(bytes) {
  const bits = [...bytes].map(it => it.toString(2).padStart(8, "0")).join("");
  return (bits.match(/.{1,5}/g) ?? []).map(it => LETTERS[parseInt(it.padEnd(5, "0"), 2)]).join("");
}

/** @param {string} letters */
export function bytes_of(letters) {
  const bits = [...letters].map(it => LETTERS.indexOf(it).toString(2).padStart(5, "0")).join("");
  return Uint8Array.from((bits.match(/.{8}/g) ?? []), it => parseInt(it, 2));
}

/**
 * The code as letters.
 * @param {Code} code
 */
export async function letters_of_code({ kind, from, to, match, offer, way, sheet = "", key = "" }) {
  const text = new TextEncoder().encode(key + "\0" + sheet);
  const head = [VERSION, KINDS.indexOf(kind), STATIONS.indexOf(from), STATIONS.indexOf(to), ...bytes_of_hex(match), ...bytes_of_hex(offer), ...packed_reachable(way)];
  const packed = await through(new Uint8Array([...head, ...(kind === "invitation" ? text : [])]), new CompressionStream("deflate-raw"));
  const sum = (await hash_of(packed)).subarray(0, SUM);
  return letters_of(new Uint8Array([...sum, ...packed]));
}

/**
 * The letters in what was scanned or pasted: a link has them behind `#`. Spaces and ends of lines don't matter.
 * @param {string} text
 */
export function letters_in(text) {
  return text.slice(text.lastIndexOf("#") + 1).replace(/\s/g, "").toUpperCase();
}

/**
 * The code that was scanned or pasted. What is damaged, cut off or something else is `Unfit`, and says so.
 * @param {string} text
 * @returns {Promise<Code>}
 */
export async function code_in(text) {
  const letters = letters_in(text);
  if (letters === "") throw new Unfit("nothing was pasted");
  if (letters.length > LONGEST || !/^[A-Z2-7]+$/.test(letters)) throw new Unfit("this is no code of a match");
  const bytes = bytes_of(letters);
  const [sum, packed] = [bytes.subarray(0, SUM), bytes.subarray(SUM)];
  if (packed.length === 0 || hex_of((await hash_of(packed)).subarray(0, SUM)) !== hex_of(sum)) throw new Unfit("this is no code of a match, or a letter of it is lost");
  try {
    return await read_code(new Reader(await through(packed, new DecompressionStream("deflate-raw"))));
  } catch (why) {
    if (why instanceof Unfit) throw why;
    throw new Unfit("this is no code of a match");
  }
}

/**
 * @param {Reader} from
 * @returns {Promise<Code>}
 */
async function read_code(from) {
  if (from.byte() !== VERSION) throw new Unfit("this code is of another release of the app: take the newest on both tablets");
  const kind = KINDS[from.byte()];
  const [shows, reads] = [STATIONS[from.byte()], STATIONS[from.byte()]];
  if (!kind || !shows || !reads || shows === reads) throw new Unfit("this is no code of a match");
  const [match, offer] = [hex_of(from.take(MATCH)), hex_of(from.take(OFFER))];
  const way = reachable_of(from);
  const left = from.text(from.bytes.length - from.at);
  if (kind !== "invitation") return { kind, from: shows, to: reads, match, offer, way };
  const end = left.indexOf("\0");
  const [key, sheet] = [left.slice(0, end), left.slice(end + 1)];
  if (end < 0 || (await match_of(sheet, key)) !== match) throw new Unfit("this is no code of a match");
  return { kind, from: shows, to: reads, match, offer, way, sheet, key };
}
