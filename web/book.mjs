// @ts-check
// The page: what was chosen, and what the program prints of it. No Law and no figure is reckoned here.
import { archive_of } from "./archive.mjs";
import { at, element, field, link, put_if, put_progress, save } from "./dom.mjs";
import { match_of } from "./exports.mjs";
import { ground, lacking, matches_of, put_file, words_of } from "./files.mjs";
import { has_wide_memory } from "./kernel.mjs";
import { narrowed } from "./narrow.mjs";
import { found_dropped, found_in, read_all } from "./reading.mjs";
import { files_of, row_of } from "./season.mjs";
import { begin_rehearsal, end_rehearsal } from "./stations.mjs";

/**
 * What is shown: its name, the program's words for it, its files to keep, each with words of its own where they are others, and what to know of it.
 * @typedef {object} View
 * @property {string} name
 * @property {string[]} words
 * @property {{ name: string, kind?: string, words?: string[] }[]} files
 * @property {string} [note]
 */

/** @type {View[]} */
const VIEWS = [
  { name: "Match page", words: ["page"], files: [{ name: "match.html", kind: "text/html" }] },
  { name: "Cards", words: ["card"], files: [{ name: "card.txt" }] },
  { name: "Compare", words: ["compare"], files: [{ name: "compare.txt" }], note: "Each line above the last is a place and a round at which both scorers wrote "
    + "different lines, or only one wrote: places and rounds count from 0." },
  { name: "Export", words: ["export"], files: [
    { name: "match.json", kind: "application/json" },
    { name: "deliveries.csv", kind: "text/csv", words: ["export", "--rows"] },
    { name: "penalties.csv", kind: "text/csv", words: ["export", "--penalties"] },
  ] },
  { name: "Lines", words: ["lines"], files: [{ name: "lines.txt" }] },
  { name: "Sheet", words: ["sheet"], files: [] },
];
const COUNTED = /^agreed (\d+), differed (\d+), only a (\d+), only b (\d+)$/m;
const NAMES = { votes: "votes", sheet: "the sheet", lines: "lines", export: "an export" };

/** @type {WebAssembly.Module | null} */
let module = null;
/**
 * Those that were chosen, and the one of them that is shown.
 * @type {import("./files.mjs").Match[]}
 */
let matches = [];
/** @type {import("./files.mjs").Match} */
let match = { folder: "", files: [] };
/**
 * What the page says of the match that is shown, beside what the program does.
 * @type {Map<import("./files.mjs").Match, string>}
 */
const notes = new Map();
let wanted = VIEWS[0]; // what was asked for
let view = wanted; // what can be shown of that
let turn = 0; // which of the showings is the last
let trouble = ""; // why a file couldn't be read

/** The program's module, of this engine's kind of memory. */
async function begin() {
  if (typeof DecompressionStream === "undefined") throw new Error("it needs Chrome or Edge 97, Firefox 113, Safari 16.4, or a later one");
  const packed = Uint8Array.from(atob(at("module").textContent ?? ""), letter => letter.charCodeAt(0));
  at("module").remove();
  const plain = new Blob([packed]).stream().pipeThrough(new DecompressionStream("gzip"));
  const bytes = new Uint8Array(await new Response(plain).arrayBuffer());
  module = await WebAssembly.compile(has_wide_memory() ? bytes : narrowed(bytes));
  put_if("state", "");
  await show();
}

/** @param {string[]} words @param {import("./files.mjs").Chosen[]} [files] @param {Uint8Array} [input] */
function run_program(words, files = match.files, input) {
  return ground(/** @type {WebAssembly.Module} */ (module), words, files, input);
}

// ---- what is chosen

/**
 * Has the match whose export alone was chosen. The sheet of which the program prints the same export is its sheet.
 * @param {import("./files.mjs").Match} of
 */
async function open_export(of) {
  const made = of.files.find(it => it.kind === "export");
  if (!made || module === null || of.files.some(it => it.kind === "lines" || it.kind === "votes")) return;
  const encoder = new TextEncoder();
  let found;
  try {
    found = match_of(new TextDecoder().decode(made.bytes));
  } catch {
    notes.set(of, made.name + " isn't an export of this program's.");
    return;
  }
  let is_same = false;
  const first = of.files.find(it => it.kind === "sheet");
  for (const sheet of first ? [null] : found.sheets) {
    if (sheet) put_file(of, "sheet.toml", encoder.encode(sheet));
    put_file(of, "lines.txt", encoder.encode(found.lines));
    const { status, output } = await run_program(/** @type {string[]} */ (words_of(of, ["export"])), of.files);
    is_same = status === 0 && (await output.text()) === new TextDecoder().decode(made.bytes);
    if (is_same) break;
  }
  notes.set(of, is_same ? made.name + " is what the program prints of its book, byte for byte." : "The program prints another export of this book than " + made.name + ".");
}

/** @param {Promise<import("./reading.mjs").Found[]>} finding */
async function take(finding) {
  leave_rehearsal();
  trouble = "";
  try {
    const files = await read_all(await finding);
    const loose = files.filter(it => !it.path.includes("/"));
    for (const it of loose) put_file(match, it.path, it.bytes);
    const found = matches_of(files.filter(it => it.path.includes("/")));
    matches = [...matches.filter(it => !found.some(other => other.folder === it.folder)), ...found];
    if (found.length) match = found[0];
    else if (loose.length && !matches.includes(match)) matches = [...matches, match];
    if (files.length && !found.length && !loose.length) trouble = "No match was found there: a match has a sheet, whose name ends in .toml, and votes or lines.";
    for (const it of [...found, ...(loose.length ? [match] : [])]) await open_export(it);
  } catch (why) {
    trouble = /** @type {Error} */ (why).message;
  }
  await show();
  await list_matches();
}

/** Shows what was chosen again, where a rehearsal was shown. */
function leave_rehearsal() {
  if (at("rehearsal").hidden) return;
  end_rehearsal();
  match = matches[0] ?? { folder: "", files: [] };
}

function take_all_away() {
  leave_rehearsal();
  [matches, match, trouble] = [[], { folder: "", files: [] }, ""];
  list_matches();
  show();
  field("input").focus();
}

function list_files() {
  const files = at("rehearsal").hidden ? match.files : [];
  at("chosen").replaceChildren(...files.map(it => {
    const row = element("li");
    const away = element("button", "Take away");
    away.setAttribute("aria-label", "Take " + it.name + " away");
    away.onclick = () => {
      match.files = match.files.filter(other => other !== it);
      show();
      field("input").focus();
    };
    row.append(element("span", it.name, "name"), element("span", NAMES[it.kind], "kind quiet"), away);
    return row;
  }));
  at("none").hidden = files.length === 0 && matches.length < 2;
  at("asked").hidden = files.length > 0 && !lacking(match);
}

// ---- many matches

/** @param {import("./files.mjs").Match} of @param {import("./season.mjs").Row} row */
function row_shown(of, row) {
  const [made, head] = [element("tr"), element("th")];
  head.scope = "row";
  const button = element("button", of.folder || row.title || "Files without a folder");
  button.onclick = async () => {
    match = of;
    await show();
    at("match").scrollIntoView();
  };
  head.append(button, element("div", of.folder ? row.title : "", "quiet"));
  made.append(head, element("td", row.day), row.told && !row.result ? element("td", row.told, "wrong") : element("td", row.result), element("td", row.both));
  return made;
}

/** A row for each match, one after the other. */
async function list_matches() {
  const all = matches;
  at("season").hidden = all.length < 2;
  if (module === null || all.length < 2) return put_progress("", 0, 0);
  at("rows").replaceChildren();
  for (const [number, it] of all.entries()) {
    await put_progress("The program reads matches", number, all.length);
    const row = await row_of(module, it);
    if (all !== matches) return;
    at("rows").append(row_shown(it, row));
  }
  await put_progress("", all.length, all.length);
}

async function save_all() {
  const [all, found] = [matches, /** @type {{ name: string, bytes: Uint8Array }[]} */ ([])];
  for (const [number, it] of all.entries()) {
    await put_progress("The program prints matches", number, all.length);
    if (module) found.push(...(await files_of(module, it)));
  }
  await put_progress("", all.length, all.length);
  save("matches.zip", archive_of(found));
}

// ---- what is shown

function list_views() {
  const can = VIEWS.filter(it => words_of(match, it.words));
  view = can.includes(wanted) ? wanted : can[0] || wanted;
  at("views").replaceChildren(...can.map(it => {
    const button = element("button", it.name);
    button.setAttribute("aria-pressed", String(it === view));
    button.onclick = async () => {
      wanted = it;
      await show();
      /** @type {HTMLElement} */ (at("views").querySelector("[aria-pressed=true]")).focus();
    };
    return button;
  }));
  at("match").hidden = can.length === 0;
}

/** The sheet, to be edited, above what the program reads of it or finds wrong in it, letter by letter. */
async function sheet_edited() {
  const sheet = /** @type {import("./files.mjs").Chosen} */ (match.files.find(it => it.kind === "sheet"));
  const [all, label, text, read] = [element("div"), element("label", "The sheet, as text", "named"), element("textarea"), element("pre")];
  const keep = element("button", "Save " + sheet.name);
  label.htmlFor = text.id = "sheet-text";
  text.spellcheck = false;
  text.value = new TextDecoder().decode(sheet.bytes);
  read.tabIndex = 0;
  read.setAttribute("aria-label", "What the program says of the sheet");
  read.setAttribute("role", "status");
  const reread = async () => {
    const { status, output, errors } = await run_program(["sheet", "--sheet", sheet.name]);
    read.textContent = await output.text();
    put_if("told", status === 0 ? errors.trimEnd() : ((await output.text()) || errors).trimEnd());
    read.hidden = status !== 0;
  };
  text.oninput = () => {
    sheet.bytes = new TextEncoder().encode(text.value);
    reread();
  };
  keep.onclick = () => save(sheet.name, new Blob([sheet.bytes], { type: "text/plain" }));
  all.append(label, text, keep, read);
  await reread();
  return all;
}

/**
 * The page of a match in a frame that can reach nothing, or a text.
 * @param {string} text
 */
async function laid_out(text) {
  if (view.words[0] === "sheet") return sheet_edited();
  if (view.words[0] !== "page") {
    const made = element("pre", text);
    made.tabIndex = 0;
    return made;
  }
  const frame = element("iframe");
  frame.title = "The match's page";
  frame.setAttribute("sandbox", "");
  frame.srcdoc = text;
  return frame;
}

/** @param {import("./files.mjs").Done} first */
async function put_files(first) {
  const made = [];
  for (const file of view.files) {
    const done = file.words ? await run_program(/** @type {string[]} */ (words_of(match, file.words))) : first;
    if (done.status === 0) made.push(link("Save " + file.name, new Blob([done.output], { type: file.kind || "text/plain" }), file.name));
  }
  if (view.words[0] === "page") made.push(link("Open to print", new Blob([first.output], { type: "text/html" })));
  return made;
}

/** What both desks' files have in common, as `compare` counts it, in a sentence, with what else it tells. */
async function compared() {
  const words = words_of(match, ["compare"]);
  if (!words) return "";
  const { status, output, errors } = await run_program(words);
  const text = (await output.text()) + errors;
  const counts = COUNTED.exec(text);
  if (!counts) return status === 0 ? text : "";
  const [agreed, differed, one, other] = counts.slice(1);
  const rest = [[differed, "differed"], [one, "only A wrote"], [other, "only B wrote"]].filter(([count]) => count !== "0").map(([count, what]) => what + " " + count + "×");
  const told = "Both desks wrote " + agreed + " entries alike" + (rest.length ? "; on the way or behind them they " + rest.join(", ") + ": Compare shows where." : ", and nothing else.");
  return [told, text.replace(COUNTED, "").trim() && status !== 0 ? text.replace(COUNTED, "").trim() : ""].filter(it => it).join("\n");
}

/**
 * All that is wrong with the sheet, where something was refused.
 * @param {import("./files.mjs").Done | null} done
 */
async function faults(done) {
  if (!done || done.status === 0 || view.words[0] === "sheet") return "";
  const { status, output } = await run_program(/** @type {string[]} */ (words_of(match, ["sheet"])));
  return status === 0 ? "" : output.text();
}

/** Shows what was asked for last: the program runs anew over what is chosen. */
async function show() {
  const mine = ++turn;
  list_files();
  list_views();
  if (module === null) return;
  const words = words_of(match, view.words);
  const done = words && (await run_program(words));
  const text = done ? await done.output.text() : "";
  const files = done && done.status === 0 ? await put_files(done) : [];
  const [both, wrong] = [await compared(), await faults(done)];
  const is_well = (done && done.status === 0) || view.words[0] === "compare" || view.words[0] === "sheet";
  const shown = done && is_well && (text || view.words[0] === "sheet") ? [await laid_out(text)] : [];
  const old = mine === turn ? [...at("kept").children] : files;
  old.forEach(it => URL.revokeObjectURL(/** @type {HTMLAnchorElement} */ (it).href));
  if (mine !== turn) return;
  const told = [trouble, at("rehearsal").hidden ? lacking(match) : "", done ? done.errors : "", done && done.status !== 0 && view.words[0] !== "compare" ? text : "", wrong];
  put_if("told", told.filter(it => it).map(it => it.trimEnd()).join("\n"));
  put_if("both", [notes.get(match) ?? "", both.trimEnd()].filter(it => it).join("\n"));
  put_if("note", is_well && text && view.note);
  at("kept").replaceChildren(...files);
  at("shown").replaceChildren(...shown);
}

// ---- what is pressed and dropped

/** @param {string} id */
function chosen_by(id) {
  field(id).onchange = async () => {
    await take(Promise.resolve(found_in(field(id).files ?? [])));
    field(id).value = "";
  };
}

chosen_by("input");
chosen_by("folder");
at("none").onclick = take_all_away;
at("save-all").onclick = save_all;
at("rehearse").onclick = async () => {
  if (module === null) return;
  const sheet = match.files.find(it => it.kind === "sheet");
  await begin_rehearsal(sheet ? sheet.bytes : new TextEncoder().encode(at("example-sheet").textContent ?? ""), run_program, async of => {
    match = of;
    await show();
  });
};
at("leave").onclick = async () => {
  leave_rehearsal();
  await show();
  at("rehearse").focus();
};
addEventListener("dragover", event => {
  event.preventDefault();
  at("files").classList.add("over");
});
addEventListener("dragleave", () => at("files").classList.remove("over"));
addEventListener("drop", event => {
  event.preventDefault();
  at("files").classList.remove("over");
  if (event.dataTransfer) take(found_dropped(event.dataTransfer));
});
begin().catch(why => put_if("state", "This browser can't run the program: " + why.message + "."));
