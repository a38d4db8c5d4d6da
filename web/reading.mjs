// @ts-check
// Files as a browser hands them out: chosen, dropped, or in a folder that was.
import { MOST_BYTES } from "./files.mjs";
import { put_progress } from "./dom.mjs";

/** @typedef {{ path: string, file: File }} Found a file by its path: one that was chosen without a folder has none in it */

/** @param {Iterable<File>} files @returns {Found[]} */
export function found_in(files) {
  return [...files].map(file => ({ path: file.webkitRelativePath || file.name, file }));
}

/**
 * All that is below an entry of what was dropped.
 * @param {any} entry
 * @returns {Promise<Found[]>}
 */
async function found_below(entry) {
  if (entry.isFile) return [{ path: entry.fullPath.replace(/^\//, ""), file: await new Promise((found, none) => entry.file(found, none)) }];
  const [reader, found] = [entry.createReader(), /** @type {Found[]} */ ([])];
  for (;;) {
    const some = /** @type {any[]} */ (await new Promise((read, failed) => reader.readEntries(read, failed)));
    if (some.length === 0) return found;
    for (const it of some) found.push(...(await found_below(it)));
  }
}

/**
 * What was dropped. The entries of folders must be asked for before anything is waited for.
 * @param {DataTransfer} dropped
 */
export async function found_dropped(dropped) {
  const entries = [...dropped.items].map(it => it.webkitGetAsEntry?.()).filter(it => it);
  if (!entries.some(it => it?.isDirectory)) return found_in(dropped.files);
  const found = [];
  for (const it of entries) found.push(...(await found_below(it)));
  return found;
}

/**
 * The bytes of files; of a long one as many as make a difference. Why one can't be read is thrown.
 * @param {Found[]} found
 */
export async function read_all(found) {
  const files = [];
  for (const [number, { path, file }] of found.entries()) {
    if (found.length > 8) await put_progress("Files are read", number, found.length);
    try {
      files.push({ path, bytes: new Uint8Array(await file.slice(0, MOST_BYTES).arrayBuffer()) });
    } catch {
      throw new Error(path + " can't be read");
    }
  }
  if (found.length > 8) await put_progress("", found.length, found.length);
  return files;
}
