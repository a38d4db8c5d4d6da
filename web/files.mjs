// @ts-check
// Files that are chosen or dropped: what each is, to which match it belongs, and by which words the program is asked of a match.
import { run_in_memory } from "./kernel.mjs";

/**
 * @typedef {"sheet" | "votes" | "lines" | "export"} Kind
 *
 * A file. Its name is one that no other file of its match has, and that isn't read as an option.
 * @typedef {object} Chosen
 * @property {string} name
 * @property {Uint8Array} bytes
 * @property {Kind} kind
 * @property {"a" | "b" | null} desk whose votes it has
 *
 * A match, by its folder: the empty text for files that were chosen without one.
 * @typedef {object} Match
 * @property {string} folder
 * @property {Chosen[]} files
 *
 * What a run of the program came to. The status is null where it was stopped amid all.
 * @typedef {object} Done
 * @property {number | null} status
 * @property {Blob} output
 * @property {string} errors
 */

const VOTES = "CBVOTES"; // what a votes file begins with
const DESK = 16; // where its byte of the desk is: 2 for B's
const EXPORT = /^\s*\{[^]*"yermudosh"/;
/** One byte more than the program reads of a file: the rest of a longer one makes no difference. */
export const MOST_BYTES = 16_777_217;

/**
 * What a file is, by its first bytes and its name.
 * @param {string} name
 * @param {Uint8Array} bytes
 * @returns {Kind}
 */
export function kind_of(name, bytes) {
  const latin = new TextDecoder("latin1");
  if (latin.decode(bytes.subarray(0, VOTES.length)) === VOTES) return "votes";
  if (name.toLowerCase().endsWith(".toml")) return "sheet";
  return name.toLowerCase().endsWith(".json") && EXPORT.test(latin.decode(bytes)) ? "export" : "lines";
}

/**
 * Puts a file to a match. A sheet, lines or an export takes the place of the one before.
 * @param {Match} match
 * @param {string} name
 * @param {Uint8Array} bytes
 */
export function put_file(match, name, bytes) {
  const kind = kind_of(name, bytes);
  if (kind !== "votes") match.files = match.files.filter(it => it.kind !== kind);
  const own = name.startsWith("-") ? "./" + name : name;
  let [tried, count] = [own, 1];
  while (match.files.some(it => it.name === tried)) tried = own + " (" + ++count + ")";
  match.files.push({ name: tried, bytes, kind, desk: kind === "votes" ? (bytes[DESK] === 2 ? "b" : "a") : null });
}

/** @param {string} path */
const folder_of = path => path.slice(0, Math.max(path.lastIndexOf("/"), 0));

/**
 * Whether a file of a folder is one of a match's: what else stands there, as a page or cards that were saved, isn't read.
 * @param {{ path: string, bytes: Uint8Array }} file
 */
function is_of_a_match({ path, bytes }) {
  return kind_of(path, bytes) !== "lines" || /(^|\/)(book|lines|innings)\.txt$/i.test(path);
}

/**
 * The matches of folders. A folder with a sheet is a match, with all that lies below it up to the next sheet; where there is
 * none in any folder above, a folder with votes, lines or an export is one. Votes come before lines, and lines before an export.
 * @param {{ path: string, bytes: Uint8Array }[]} files
 * @returns {Match[]}
 */
export function matches_of(files) {
  const all = files.filter(is_of_a_match);
  const sheets = new Set(all.filter(it => kind_of(it.path, it.bytes) === "sheet").map(it => folder_of(it.path)));
  /** @type {Map<string, Match>} */
  const found = new Map();
  for (const { path, bytes } of all) {
    let folder = folder_of(path);
    while (folder && !sheets.has(folder)) folder = folder_of(folder);
    const own = sheets.has(folder) ? folder : folder_of(path);
    if (!found.has(own)) found.set(own, { folder: own, files: [] });
    put_file(/** @type {Match} */ (found.get(own)), path.slice(path.lastIndexOf("/") + 1), bytes);
  }
  const best = (/** @type {Match} */ match) => ["votes", "lines", "export"].find(kind => match.files.some(it => it.kind === kind));
  for (const match of found.values()) match.files = match.files.filter(it => it.kind === "sheet" || it.kind === best(match));
  return [...found.values()].sort((one, other) => one.folder.localeCompare(other.folder, "en", { numeric: true }));
}

/**
 * The words that name a match's files, behind those of what is printed of it; nothing where a file is lacking or one too many is there.
 * @param {Match} match
 * @param {string[]} words
 */
export function words_of(match, words) {
  const of = (/** @type {Kind} */ kind) => match.files.filter(it => it.kind === kind);
  const [sheet, lines] = [of("sheet")[0], of("lines")[0]];
  const votes = of("votes").sort((one, other) => String(one.desk).localeCompare(String(other.desk)));
  if (!sheet) return null;
  const all = [...words, "--sheet", sheet.name];
  if (words[0] === "sheet") return all;
  if (words[0] === "compare") return votes.length === 2 ? [...all, "--a", votes[0].name, "--b", votes[1].name] : null;
  if (votes.length + (lines ? 1 : 0) === 0 || votes.length > 2 || (lines && votes.length)) return null;
  if (lines) return [...all, "--kind", "book", "--from", lines.name];
  if (votes.length === 2) return [...all, "--kind", "both", "--from", votes[0].name, "--with", votes[1].name];
  return [...all, "--kind", String(votes[0].desk), "--from", votes[0].name];
}

/**
 * What a match lacks, or has too much of, in words.
 * @param {Match} match
 */
export function lacking(match) {
  const count = (/** @type {Kind} */ kind) => match.files.filter(it => it.kind === kind).length;
  if (match.files.length === 0) return "";
  if (count("votes") > 2) return "There are " + count("votes") + " votes files: take all but desk A's and desk B's away.";
  if (count("lines") && count("votes")) return "There are lines and votes: take the ones or the others away.";
  if (!count("sheet")) return "The sheet is lacking: a file whose name ends in .toml.";
  if (!count("votes") && !count("lines")) return "The votes or the lines are lacking.";
  return "";
}

/**
 * Runs the program over a match's files. Where it is stopped amid all, that is told as what it tells is.
 * @param {WebAssembly.Module} module
 * @param {string[]} words
 * @param {Chosen[]} files
 * @param {Uint8Array} [input]
 * @returns {Promise<Done>}
 */
export async function ground(module, words, files, input) {
  try {
    const { status, output, errors } = await run_in_memory(module, words, Object.fromEntries(files.map(it => [it.name, it.bytes])), input);
    return { status, output, errors: await errors.text() };
  } catch (why) {
    return { status: null, output: new Blob([]), errors: "The program was stopped: " + /** @type {Error} */ (why).message };
  }
}
