// @ts-check
// The app's page: what the browser lacks, the matches of this tablet, and one of them open.
import { has_wide_memory } from "../kernel.js";
import { at, element, field, put_if, save } from "../dom.js";
import { offer_camera } from "./camera.js";
import { code_in, match_of } from "./code.js";
import { all_matches, put_match } from "./database.js";
import { Unfit } from "./description.js";
import { Joining, capital } from "./joining.js";
import { begin_making, keep_match } from "./making.js";
import { Playing } from "./playing.js";
import { files_in } from "./pool.js";
import { program_at, read_sheet } from "./program.js";
import { keep_app, release, take_release, watch_releases } from "./release.js";
import { called, is_desk } from "./words.js";

/** @typedef {import("./database.js").Match} Match */

const CODES = new BroadcastChannel("codes");
const WAIT = 700;
const QUERY = new URLSearchParams(location.search);
const VIEWS = ["home", "making"];
const MAY_GO = "The browser may throw away what is stored here when it runs out of room: install the app to the home screen, and save the votes file after each innings.";

/** @type {WebAssembly.Module} */
let module;
/** @type {Playing | null} */
let playing = null;
/** @type {Joining | null} */
let joining = null;

/** Whether what a code has can be packed as all pack it. */
function can_pack() {
  try {
    return Boolean(new CompressionStream("deflate-raw"));
  } catch {
    return false;
  }
}

/** What this browser lacks, in words. */
function lacking() {
  if (!isSecureContext) return ["This page must come over https: a browser gives no store to any other."];
  /** @type {[string, boolean][]} */
  const needs = [
    ["a service worker, which keeps the app (a private window has none)", "serviceWorker" in navigator],
    ["a private store of files", typeof navigator.storage?.getDirectory === "function"],
    ["a way to another tablet (WebRTC)", typeof RTCPeerConnection === "function"],
    ["packing (CompressionStream)", can_pack()],
    ["locks", "locks" in navigator],
    ["a database", typeof indexedDB === "object"],
    ["WebAssembly", typeof WebAssembly === "object"],
  ];
  return needs.filter(([, has]) => !has).map(([what]) => "It lacks " + what + ".");
}

/** @param {string[]} lacks */
function show_lacking(lacks) {
  at("lacking").hidden = lacks.length === 0;
  at("lacks").replaceChildren(...lacks.map(it => element("li", it)), element("li", "Chrome, Edge, Firefox or Safari of 2023 or later should have all of it."));
  if (lacks.length) put_if("state", "This browser can't keep a match.");
}

/** @param {string} view */
function show_view(view) {
  for (const it of VIEWS) at(it).hidden = it !== view;
  at("panel").hidden = at("page").hidden = at("match-buttons").hidden = view !== "match";
  document.body.classList.toggle("playing", view === "match");
  put_if("told", "");
  scrollTo(0, 0);
}

// ---- The matches of this tablet

/** @param {Match} match */
function row_of(match) {
  const [row, name, go, away, hand] = [element("li"), element("span", match.title, "name"), element("button", "Open"), element("button", "Remove"), element("button", "Votes file")];
  name.append(element("small", `${capital(called(match.station))}, ${new Date(match.made).toLocaleString()}`));
  go.className = "main";
  go.onclick = () => open_match(match);
  away.setAttribute("aria-label", "Remove " + match.title);
  away.onclick = async () => {
    if (!confirm(`Remove ${match.title} from this tablet, with all its votes? Save the votes file first.`)) return;
    await put_match(match.name, null);
    await (await navigator.storage.getDirectory()).removeEntry(match.name, { recursive: true }).catch(() => undefined);
    await list_matches();
  };
  hand.setAttribute("aria-label", "Save the votes file of " + match.title);
  hand.hidden = !is_desk(match.station);
  hand.onclick = () => save_file(match, ".votes");
  row.append(name, go, hand, away);
  return row;
}

async function list_matches() {
  const all = await all_matches();
  at("kept").hidden = all.length === 0;
  at("matches").replaceChildren(...all.map(row_of));
}

/**
 * Asks the browser to keep what is stored, and tells what it answers.
 * @param {boolean} is_asked
 */
async function show_storage(is_asked) {
  const persists = is_asked ? await navigator.storage.persist() : await navigator.storage.persisted();
  const told = persists ? "The browser keeps what is stored here." : MAY_GO;
  for (const it of ["storage", "storage-here"]) put_if(it, told);
}

// ---- A match that is open

/** @param {Match} match */
function open_match(match) {
  show_view("match");
  at("panel").hidden = true;
  history.pushState(null, "");
  show_storage(true).catch(() => undefined);
  playing = new Playing(module, match, /** @type {HTMLIFrameElement} */ (at("page")), show_state);
  joining = new Joining(playing);
  playing.begin({ is_traced: QUERY.has("trace") });
  document.title = `${capital(called(match.station))}: ${match.title}`;
  at("who").textContent = capital(called(match.station));
  at("show-file").hidden = !is_desk(match.station);
  at("full").hidden = is_desk(match.station) || !document.fullscreenEnabled;
  Object.assign(window, { playing, joining });
  show_state();
}

/**
 * To whom an open match is joined, in words.
 * @param {Playing} open
 */
function state_of(open) {
  const { network, station } = open;
  if (!station.listens) return "The program starts.";
  const [desk] = open.peers();
  const joined = open.peers().filter(it => network.has(it)).map(called);
  if (network.has(desk)) return "Joined to " + joined.join(", ");
  const is_tried = network.links.get(desk)?.is_tried_again ?? false;
  const lost = is_tried ? `The way to ${called(desk)} is lost, and tried again by itself.` : `Not joined to ${called(desk)}.`;
  return (joined.length ? `Joined to ${joined.join(", ")}. ` : "") + lost + (is_desk(open.match.station) ? " What is written here waits." : "");
}

function show_state() {
  if (!playing || !joining) return;
  const ended = playing.ended();
  if (ended) {
    put_if("told", ended);
    put_if("state", "Stopped.");
    return;
  }
  put_if("state", state_of(playing));
  if (joining.list()) {
    show_panel("codes");
    playing.match.met = [...joining.met];
    playing.keep();
  }
  if (playing.station.restored) put_if("told", "The store was lost by a power cut, and was given back whole.");
  playing.station.restored = 0;
}

/** @param {"codes" | "file"} which */
function show_panel(which) {
  at("panel").hidden = false;
  at("codes").hidden = which !== "codes";
  at("file").hidden = which !== "file";
  at("panel-heading").textContent = which === "codes" ? "Connect" : "The votes file";
}

async function show_codes() {
  if (!playing || !joining) return;
  const is_shown = !at("panel").hidden && !at("codes").hidden;
  if (is_shown) return hide_panel();
  show_panel("codes");
  const lacks = playing.peers().filter(it => is_desk(it) && !playing?.network.has(it));
  at("taking").hidden = lacks.length === 0;
  if (lacks.length && !joining.shown_to) await joining.invite(lacks[0]);
}

function hide_panel() {
  at("panel").hidden = true;
}

/**
 * The files of a match that are handed out, by the names that the program gives them.
 * @param {Match} match
 */
async function files_of(match) {
  const name = match.station + ".votes";
  const votes = (await playing?.station.votes()) ?? (await files_in(match.name).catch(() => null))?.["/" + name];
  const sheet = new File([match.sheet], "sheet.toml", { type: "text/plain" });
  return votes ? [new File([/** @type {any} */ (votes)], name, { type: "application/octet-stream" }), sheet] : [sheet];
}

/**
 * @param {Match} match
 * @param {string} end what the file's name ends in
 */
async function save_file(match, end) {
  const found = (await files_of(match)).find(it => it.name.endsWith(end));
  if (found) save(found.name, found);
  else put_if("told", "There is no votes file yet.");
}

// ---- Codes that come with a link, or from another page of this app

/**
 * Whether another page of this app, which has the match open, takes a code.
 * @param {string} text
 */
function taken_elsewhere(text) {
  const number = crypto.getRandomValues(new Uint32Array(1))[0];
  return new Promise(resolve => {
    CODES.onmessage = ({ data }) => { if (data.taken === number) resolve(true); };
    CODES.postMessage({ number, text });
    setTimeout(resolve, WAIT, false);
  });
}

/**
 * Joins a match by a code: the one of an invitation, or one that is on this tablet.
 * @param {string} text
 */
async function join_by(text) {
  const code = await code_in(text);
  if (await taken_elsewhere(text)) return put_if("told", "The page that has this match open has taken the code. Go back to it; this page can be closed.");
  listen();
  if (code.kind === "answer") throw new Unfit("this answers a code that is no longer shown: show a new one on this tablet");
  const all = await all_matches();
  const ids = await Promise.all(all.map(it => match_of(it.sheet, it.key)));
  let match = all.find((it, number) => ids[number] === code.match && it.station === code.to);
  if (!match && code.kind === "offer") throw new Unfit("the match of this code isn't on this tablet: the other tablet must show the whole code, with Connect after it was opened anew");
  if (!match) {
    const { output, faults } = await read_sheet(module, code.sheet ?? "");
    if (faults.length) throw new Unfit("the code has a sheet that isn't one: " + faults[0]);
    const title = /^title (.*)$/m.exec(output)?.[1] ?? "A match";
    match = await keep_match({ station: /** @type {any} */ (code.to), title, sheet: code.sheet ?? "", key: code.key ?? "" });
  }
  open_match(match);
  show_panel("codes");
  return joining?.take(code);
}

/** Has a page with an open match take codes that other pages got. */
function listen() {
  CODES.onmessage = async ({ data }) => {
    if (!joining || !data.text) return;
    const code = await code_in(data.text).catch(() => null);
    if (!code || !(await joining.is_for_this(code))) return;
    CODES.postMessage({ taken: data.number });
    show_panel("codes");
    await joining.take_text(data.text);
  };
}

/** @param {string} text */
async function try_joining(text) {
  put_if("told", "");
  try {
    await join_by(text);
  } catch (why) {
    put_if("told", why instanceof Unfit ? capital(why.message) + "." : "The code can't be used: " + /** @type {Error} */ (why).message);
  }
}

// ---- What is pressed

/** The place where a code is pasted before a match is open. */
function show_joining() {
  show_view("joining");
  at("panel").hidden = at("codes").hidden = false;
  at("file").hidden = at("shown-code").hidden = at("fingerprints").hidden = true;
  at("panel-heading").textContent = "Join a match";
  put_if("take-step", "Take the code that the other tablet shows.");
  offer_camera(try_joining);
  at("taking").hidden = false;
  at("take-code").onclick = () => try_joining(field("paste").value);
  field("paste").focus();
}

function press() {
  at("make").onclick = () => {
    show_view("making");
    begin_making(module, match => {
      open_match(match);
      show_codes();
    });
  };
  at("join").onclick = show_joining;
  at("leave-making").onclick = () => show_view("home");
  at("show-codes").onclick = () => show_codes();
  at("show-file").onclick = () => (at("file").hidden || at("panel").hidden ? show_panel("file") : hide_panel());
  at("show-more").onclick = () => location.reload();
  at("close-panel").onclick = () => (playing ? hide_panel() : show_view("home"));
  at("score").onclick = hide_panel;
  at("full").onclick = () => document.documentElement.requestFullscreen().catch(() => undefined);
  document.addEventListener("fullscreenchange", () => { at("bar").hidden = document.fullscreenElement !== null; });
  at("save-votes").onclick = () => playing && save_file(playing.match, ".votes");
  at("save-sheet").onclick = () => playing && save_file(playing.match, ".toml");
  at("share-file").hidden = !navigator.canShare?.({ files: [new File(["x"], "a.votes", { type: "application/octet-stream" })] });
  at("share-file").onclick = async () => playing && navigator.share({ files: await files_of(playing.match) }).catch(() => undefined);
  at("take").onclick = async () => { if (!(await take_release())) put_if("told", "A match is open in another page: close that one first."); };
  // A page that comes back from a browser's memory has stopped its station.
  addEventListener("pageshow", ({ persisted }) => { if (persisted) location.reload(); });
  // The button that goes back leaves no match.
  addEventListener("hashchange", () => take_address());
  addEventListener("popstate", () => { if (playing) history.pushState(null, ""); });
}

/** A code that a link brings while this page is open. */
async function take_address() {
  const text = code_of_address();
  if (!text) return;
  const code = await code_in(text).catch(() => null);
  if (!joining || (code && !(await joining.is_for_this(code)))) return try_joining(text);
  show_panel("codes");
  await joining.take_text(text);
}

/** The code behind `#` in this page's address, which no history keeps. */
function code_of_address() {
  const found = location.hash.slice(1);
  if (found) history.replaceState(null, "", location.pathname + location.search);
  return found;
}

async function begin() {
  const lacks = lacking();
  show_lacking(lacks);
  if (lacks.length) return;
  at("release").textContent = release();
  if (await keep_app()) return;
  if (!self.crossOriginIsolated) return show_lacking(["It shares no memory between a page and its worker, though the app asked for it: open the page anew."]);
  const code = code_of_address();
  press();
  listen();
  await Promise.all([list_matches(), show_storage(false)]);
  module = await program_at(document.documentElement.dataset.program ?? "");
  put_if("state", "");
  put_if("stays", `Kept on this tablet: it opens without a network. ${has_wide_memory() ? "" : "Its program was made narrower for this browser."}`);
  field("make").disabled = field("join").disabled = false;
  watch_releases(() => { at("newer").hidden = playing !== null; }).catch(() => undefined);
  if (code) await try_joining(code);
}

begin().catch(why => put_if("told", "The app can't start: " + /** @type {Error} */ (why).message));
