// @ts-check
// Many matches at once: what the program's export and comparison say of each, laid out as a row; and all that it prints of each, as files.
import { ground, lacking, words_of } from "./files.mjs";

/**
 * A row of the list of matches.
 * @typedef {object} Row
 * @property {string} title
 * @property {string} day
 * @property {string} result
 * @property {string} both how both files stand to each other
 * @property {string} told why there is none
 */

/** What is printed of a match, by the name of its file. */
export const PRINTED = {
  "match.html": ["page"], "card.txt": ["card"], "match.json": ["export"], "deliveries.csv": ["export", "--rows"], "penalties.csv": ["export", "--penalties"],
  "lines.txt": ["lines"], "compare.txt": ["compare"],
};

/**
 * An outcome's values, as they stand in an export: what the sheet tells goes before what the Laws say.
 * @param {any} outcome
 * @returns {string}
 */
function told_of(outcome) {
  if (!outcome) return "";
  const by = Object.entries(outcome.by ?? {}).map(([what, count]) => ", by " + count + " " + what.replace(/_/g, " "));
  return (outcome.winner ?? outcome.result ?? "") + by.join("") + (outcome.method ? " (" + outcome.method + ")" : "");
}

/**
 * The last line of a comparison, which counts, or why both files can't be one match's.
 * @param {WebAssembly.Module} module
 * @param {import("./files.mjs").Match} match
 */
async function counted(module, match) {
  const words = words_of(match, ["compare"]);
  if (!words) return "";
  const { output, errors } = await ground(module, words, match.files);
  return ((await output.text()) + errors).trim().split("\n").pop() ?? "";
}

/**
 * @param {WebAssembly.Module} module
 * @param {import("./files.mjs").Match} match
 * @returns {Promise<Row>}
 */
export async function row_of(module, match) {
  const words = words_of(match, ["export"]);
  const none = { title: "", day: "", result: "", both: "" };
  if (!words) return { ...none, told: lacking(match) };
  const { status, output, errors } = await ground(module, words, match.files);
  const both = await counted(module, match);
  if (status !== 0) return { ...none, both, told: errors.trim() || (await output.text()).trim() };
  const { info, yermudosh } = JSON.parse(await output.text());
  return { title: info.event?.name ?? "", day: String(info.dates?.[0] ?? ""), result: told_of(yermudosh.outcome) || told_of(info.outcome), both, told: errors.trim() };
}

/**
 * All that the program prints of a match, in a folder of the match's name. What is refused isn't there.
 * @param {WebAssembly.Module} module
 * @param {import("./files.mjs").Match} match
 */
export async function files_of(module, match) {
  const found = [];
  for (const [name, words] of Object.entries(PRINTED)) {
    const all = words_of(match, words);
    const done = all && (await ground(module, all, match.files));
    if (done && done.status === 0) found.push({ name: match.folder + "/" + name, bytes: new Uint8Array(await done.output.arrayBuffer()) });
  }
  return found;
}
