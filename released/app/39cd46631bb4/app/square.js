// @ts-check
// A code as a square for a camera: a QR code of level L and mask 0 (ISO/IEC 18004), of the least version that has room, with a link's beginning in bytes and
// a code's letters behind it, which take fewer modules.

// Of each version from 1 to 40: check codewords a block, and blocks.
const CHECKS = [7, 10, 15, 20, 26, 18, 20, 24, 30, 18, 20, 24, 26, 30, 22, 24, 28, 30, 28, 28, 28, 28, 30, 30, 26, 28, 30, 30, 30, 30, 30, 30, 30, 30, 30, 30, 30, 30, 30, 30];
const BLOCKS = [1, 1, 1, 1, 1, 2, 2, 2, 2, 4, 4, 4, 4, 4, 6, 6, 6, 6, 7, 8, 8, 9, 9, 10, 12, 12, 12, 13, 14, 15, 16, 17, 18, 19, 19, 20, 21, 22, 24, 25];
const FORMAT = "111011111000100"; // of level L and mask 0, from the standard's table
const LETTERS = "0123456789ABCDEFGHIJKLMNOPQRSTUVWXYZ $%*+-./:";

/** 2^0, 2^1 and so on in the field of 256 elements, where 2^8 is 2^4 + 2^3 + 2^2 + 1. */
const POWERS = [1];
while (POWERS.length < 255) {
  const twice = POWERS[POWERS.length - 1] << 1;
  POWERS.push(twice > 255 ? twice ^ 0x11d : twice);
}
const LOGARITHMS = new Map(POWERS.map((it, at) => [it, at]));

/**
 * @param {number} one
 * @param {number} other
 */
const product = (one, other) => (one && other ? POWERS[(/** @type {number} */ (LOGARITHMS.get(one)) + /** @type {number} */ (LOGARITHMS.get(other))) % 255] : 0);

/**
 * What makes each power of 2 below 2^count a root of all.
 * @param {number[]} data
 * @param {number} count
 */
function check_codewords(data, count) {
  let divisor = [1];
  for (const root of POWERS.slice(0, count)) divisor = [...divisor, 0].map((it, at) => it ^ (at ? product(root, divisor[at - 1]) : 0));
  const left = [...data, ...Array(count).fill(0)];
  data.forEach((_, at) => {
    const first = left[at];
    divisor.forEach((it, behind) => { left[at + behind] ^= product(first, it); });
  });
  return left.slice(data.length);
}

/**
 * @param {number} value
 * @param {number} count
 */
const bits_of = (value, count) => value.toString(2).padStart(count, "0");
/** @param {number} version */
const side_of = version => 4 * version + 17;

/**
 * Where alignments stand, in each direction.
 * @param {number} version
 */
function alignments(version) {
  if (version === 1) return [];
  const count = Math.floor(version / 7) + 2;
  const step = version === 32 ? 26 : 2 * Math.ceil((version * 4 + 4) / (count * 2 - 2));
  return [6, ...Array.from({ length: count - 1 }, (_, at) => side_of(version) - 7 - at * step).reverse()];
}

/**
 * The version's own number with its check, 18 bits.
 * @param {number} version
 */
function version_bits(version) {
  let left = version;
  for (let count = 0; count < 12; count++) left = (left << 1) ^ ((left >> 11) * 0x1f25);
  return bits_of((version << 12) | left, 18);
}

/**
 * All modules that are no data: `at[row][column]` is 0, 1, or -1 for data.
 * @param {number} version
 */
function patterns(version) {
  const side = side_of(version);
  const at = Array.from({ length: side }, () => Array(side).fill(-1));
  for (let place = 8; place < side - 8; place++) at[6][place] = at[place][6] = 1 - (place % 2);
  for (const [top, left] of [[0, 0], [0, side - 7], [side - 7, 0]]) put_ring(at, top + 3, left + 3, 4, [0, 1, 3]);
  const places = alignments(version);
  const is_finder = (/** @type {number} */ row, /** @type {number} */ column) => (row === 6 && (column === 6 || column === side - 7)) || (column === 6 && row === side - 7);
  for (const row of places) for (const column of places) if (!is_finder(row, column)) put_ring(at, row, column, 2, [0, 2]);
  const around = [...[0, 1, 2, 3, 4, 5, 7, 8].map(it => [8, it]), ...[7, 5, 4, 3, 2, 1, 0].map(it => [it, 8])];
  const apart = [...[...Array(7).keys()].map(it => [side - 1 - it, 8]), ...[...Array(8).keys()].map(it => [8, side - 8 + it])];
  for (const all of [around, apart]) all.forEach(([row, column], bit) => { at[row][column] = Number(FORMAT[bit]); });
  at[side - 8][8] = 1;
  if (version >= 7) {
    [...version_bits(version)].reverse().forEach((bit, place) => {
      const [short, long] = [Math.floor(place / 3), side - 11 + (place % 3)];
      at[short][long] = at[long][short] = Number(bit);
    });
  }
  return at;
}

/**
 * Rings around a place, some of them dark.
 * @param {number[][]} at
 * @param {number} row
 * @param {number} column
 * @param {number} reach
 * @param {number[]} dark
 */
function put_ring(at, row, column, reach, dark) {
  for (let r = -reach; r <= reach; r++) {
    for (let c = -reach; c <= reach; c++) {
      if (at[row + r]?.[column + c] !== undefined) at[row + r][column + c] = Number(dark.includes(Math.max(Math.abs(r), Math.abs(c))));
    }
  }
}

/**
 * How many codewords a version has in all.
 * @param {number} version
 */
function codewords_of(version) {
  return Math.floor(patterns(version).flat().filter(it => it < 0).length / 8);
}

/**
 * The bits of a link's beginning and of letters behind it.
 * @param {string} before
 * @param {string} letters
 * @param {number} version
 */
function data_bits(before, letters, version) {
  const bytes = [...new TextEncoder().encode(before)];
  const [bytes_count, letters_count] = version < 10 ? [8, 9] : version < 27 ? [16, 11] : [16, 13];
  const pairs = (letters.match(/..?/g) ?? []).map(it => [...it].map(letter => LETTERS.indexOf(letter)));
  const packed = pairs.map(([one, other]) => (other === undefined ? bits_of(one, 6) : bits_of(45 * one + other, 11))).join("");
  const first = bytes.length ? "0100" + bits_of(bytes.length, bytes_count) + bytes.map(it => bits_of(it, 8)).join("") : "";
  return first + (letters ? "0010" + bits_of(letters.length, letters_count) + packed : "");
}

/**
 * Codewords in the order in which they stand: of all blocks by turns.
 * @param {number[]} data
 * @param {number} version
 * @param {number} all
 */
function interleaved(data, version, all) {
  const [blocks, checks] = [BLOCKS[version - 1], CHECKS[version - 1]];
  const short = Math.floor(all / blocks) - checks;
  const longer = all % blocks;
  let at = 0;
  const parts = Array.from({ length: blocks }, (_, number) => data.slice(at, (at += short + (number >= blocks - longer ? 1 : 0))));
  const ends = parts.map(it => check_codewords(it, checks));
  const by_turns = (/** @type {number[][]} */ lists) => Array.from({ length: short + checks + 1 }, (_, place) => lists.map(it => it[place]).filter(it => it !== undefined)).flat();
  return [...by_turns(parts), ...by_turns(ends)];
}

/**
 * The square's rows; 1 is dark.
 * @param {string} before
 * @param {string} letters of digits, capitals and `$%*+-./:`
 */
export function square(before, letters, least = 1) {
  for (let version = least; version <= 40; version++) {
    const all = codewords_of(version);
    const room = all - BLOCKS[version - 1] * CHECKS[version - 1];
    const bits = data_bits(before, letters, version);
    if (bits.length > 8 * room) continue;
    const whole = (bits + "0000").slice(0, 8 * room);
    const data = (whole.match(/.{1,8}/g) ?? []).map(it => parseInt(it.padEnd(8, "0"), 2));
    for (let more = 0; data.length < room; more++) data.push([0xec, 0x11][more % 2]);
    return placed(interleaved(data, version, all), version);
  }
  throw new Error("too long for a square");
}

/**
 * Codewords in their places: two columns at a time from the right, by turns up and down.
 * @param {number[]} codewords
 * @param {number} version
 */
function placed(codewords, version) {
  const at = patterns(version);
  const side = side_of(version);
  const bits = codewords.map(it => bits_of(it, 8)).join("");
  let next = 0;
  const columns = [...Array(side).keys()].reverse().filter(it => it !== 6 && (it > 6 ? (side - 1 - it) % 2 === 0 : it % 2 === 1));
  columns.forEach((right, turn) => {
    for (let step = 0; step < side; step++) {
      const row = turn % 2 ? step : side - 1 - step;
      for (const column of [right, right - 1]) if (at[row][column] < 0) at[row][column] = Number(bits[next++] ?? 0) ^ Number((row + column) % 2 === 0);
    }
  });
  return at;
}

/**
 * The square as a picture.
 * @param {number[][]} rows
 */
export function picture_of(rows) {
  const space = "http://www.w3.org/2000/svg";
  const side = rows.length + 8;
  const [all, path] = [document.createElementNS(space, "svg"), document.createElementNS(space, "path")];
  all.setAttribute("viewBox", `0 0 ${side} ${side}`);
  all.setAttribute("shape-rendering", "crispEdges");
  all.setAttribute("role", "img");
  all.setAttribute("aria-label", "The code as a square for a camera");
  path.setAttribute("d", rows.flatMap((row, r) => row.map((bit, c) => (bit ? `M${c + 4} ${r + 4}h1v1h-1z` : ""))).join(""));
  all.append(path);
  return all;
}
