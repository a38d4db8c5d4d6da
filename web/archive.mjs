// @ts-check
// A file that has many within (.zip), each as it is.

/** The remainders of CRC-32, for each byte. */
const REMAINDERS = Uint32Array.from({ length: 256 }, (_, byte) => {
  let rest = byte;
  for (let bit = 0; bit < 8; bit++) rest = rest & 1 ? (rest >>> 1) ^ 0xedb88320 : rest >>> 1;
  return rest;
});
// 1 January 1980: two archives of the same files have the same bytes.
const DATE = 0x21;
const NAMES_ARE_UTF_8 = 0x800;

/** @param {Uint8Array} bytes */
function remainder(bytes) {
  let rest = 0xffffffff;
  for (const byte of bytes) rest = REMAINDERS[(rest ^ byte) & 0xff] ^ (rest >>> 8);
  return (rest ^ 0xffffffff) >>> 0;
}

/**
 * Numbers of 2 and of 4 bytes, each with its size.
 * @param {[number, number][]} fields
 */
function fields_of(...fields) {
  return Uint8Array.from(fields.flatMap(([size, value]) => Array.from({ length: size }, (_, at) => Math.floor(value / 256 ** at) & 0xff)));
}

/**
 * The archive of these files.
 * @param {{ name: string, bytes: Uint8Array }[]} files
 */
export function archive_of(files) {
  const [parts, list] = [/** @type {Uint8Array[]} */ ([]), /** @type {Uint8Array[]} */ ([])];
  let at = 0;
  for (const { name, bytes } of files) {
    const path = new TextEncoder().encode(name);
    const about = fields_of([2, 20], [2, NAMES_ARE_UTF_8], [2, 0], [2, 0], [2, DATE], [4, remainder(bytes)], [4, bytes.length], [4, bytes.length], [2, path.length], [2, 0]);
    parts.push(fields_of([4, 0x04034b50]), about, path, bytes);
    list.push(fields_of([4, 0x02014b50], [2, 20]), about, fields_of([2, 0], [2, 0], [2, 0], [4, 0], [4, at]), path);
    at += 4 + about.length + path.length + bytes.length;
  }
  const length = list.reduce((sum, it) => sum + it.length, 0);
  const end = fields_of([4, 0x06054b50], [2, 0], [2, 0], [2, files.length], [2, files.length], [4, length], [4, at], [2, 0]);
  return new Blob([...parts, ...list, end], { type: "application/zip" });
}
