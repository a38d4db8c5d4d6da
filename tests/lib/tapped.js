// Runs the script of a desk's page over a document of its own, with a clock that stands until it is told, and a desk that answers as it is told.
//
// It reads steps as JSON, from standard input, and prints what each `run` and `posted` finds, as one JSON value:
//   ["desk", state, tellings]   the desk tells this state, the digest of that book, and its newest tellings, hidden for the page: these, which
//                           it numbers, come behind those that it told before
//   ["begun"]               the desk begins again: it forgets what it told, and counts anew
//   ["book", value]         what /book.json answers from now on; null: the desk isn't reached
//   ["between", old, new]   who is between puts the new text in place of the old one in what it answers
//   ["again", number]       what it told under this number comes once more
//   ["tap", within, text]   a tap at the button in there that has this text; without one at the first
//   ["pass", milliseconds]  time goes on
//   ["rest", isDown]        a finger comes down, and rests, or goes up
//   ["cut"]                 the stream of events ends; the page asks for it anew in its time
//   ["reach", isReached]    from now on the desk is reached, or isn't; the stream of events ends, if it is open
//   ["silence"]             from now on it isn't reached, and nothing says so
//   ["answers", isAnswered] from now on a line that is posted is answered, or it reaches the desk and nothing comes back
//   ["status", number, wait]   the next line that is posted is answered by this status, after so many milliseconds
//   ["forget"]              from now on the desk doesn't know this page any more
//   ["load"]                the page is loaded again
//   ["type", line]          a line is written in the field for any line
//   ["run", code]           what this code of the page comes to
//   ["posted"]              the lines that were posted, each with the place it was for
//   ["shaken"]              how the telephone was shaken since
//   ["fetched"]             how often the book was asked for
"use strict";
const crypto = require("crypto"), fs = require("fs"), vm = require("vm");
const [file, steps] = JSON.parse(fs.readFileSync(0));
const html = fs.readFileSync(file, "utf-8");
const script = /<script>([^]*)<\/script>/.exec(html)[1];
const SECRET = Buffer.alloc(16, 7);
const hmac = (key, ...parts) => { const it = crypto.createHmac("sha256", key); parts.forEach(part => it.update(part)); return it.digest(); };

// A text, hidden, or what is hidden, as a text: docs/FORMATS.md.
function turned(seed, text) {
  const key = hmac(SECRET, "stream");
  return Buffer.from(text.map((byte, n) => byte ^ hmac(key, seed, " " + Math.floor(n / 32))[n % 32]));
}

// ---- A document.
class Element {
  constructor(document, name) { Object.assign(this, { document, name, nodes: [], parent: null, attributes: {}, dataset: {}, heard: [], style: {}, hidden: false, className: "", value: "" }); }
  get children() { return this.nodes.filter(it => it instanceof Element); }
  get firstChild() { return this.nodes.length === 0 ? null : this.nodes[0] instanceof Element ? this.nodes[0] : { nodeValue: this.nodes[0] }; }
  get textContent() { return this.nodes.map(it => it instanceof Element ? it.textContent : it).join(""); }
  set textContent(text) { this.replaceChildren(...(text === "" ? [] : [String(text)])); }
  get shown() { return this.nodes.map(it => it instanceof Element ? it.shown : it).join(" ").replace(/\s+/g, " ").trim(); }
  get tBodies() { return this.nodes; }
  get isConnected() { return true; }
  get classList() {
    const all = () => this.className.split(" ").filter(it => it);
    const set = names => { this.className = names.join(" "); };
    return { contains: it => all().includes(it), add: it => set([...all(), it]), remove: it => set(all().filter(one => one !== it)),
      toggle: (it, isOn) => set([...all().filter(one => one !== it), ...(isOn ? [it] : [])]) };
  }
  append(...nodes) { nodes.forEach(it => { if (it instanceof Element) it.parent = this; }); this.nodes.push(...nodes); }
  replaceChildren(...nodes) { this.nodes = []; this.append(...nodes); }
  setAttribute(name, value) { this.attributes[name] = value; }
  addEventListener(name, then) { this.heard.push([name, then]); }
  contains(it) { return it === this || Boolean(it) && this.contains(it.parent); }
  closest(names) { return names.split(", ").includes(this.name) ? this : this.parent && this.parent.closest(names); }
  focus() { this.document.activeElement = this; }
  all() { return this.children.flatMap(it => [it, ...it.all()]); }
}

function documentOf() {
  const made = { title: "", hidden: false, addEventListener() {}, ids: new Map() };
  made.createElement = name => new Element(made, name);
  made.getElementById = id => made.ids.get(id);
  made.activeElement = null;
  for (const [, name, id] of html.matchAll(/<(\w+)[^>]* id="([\w-]+)"/g)) made.ids.set(id, new Element(made, name));
  made.ids.get("crease").append(new Element(made, "tbody"));
  for (const [, words, text] of html.matchAll(/<button type="button" (data-[^>]*)>([^<]*)/g)) {
    const pad = made.createElement("button");
    for (const [, key, value] of words.matchAll(/data-(\w+)="([^"]*)"/g)) pad.dataset[key] = value;
    pad.append(text);
    made.ids.get("pads").append(pad);
  }
  return made;
}

// ---- A page in its time.
const kept = new Map([["secret", SECRET.toString("hex")]]);
let time = 1e6, timers = [], page = null, number = 0, fetched = 0, book = null, between = ["", ""];
let isReached = true, isAnswered = true, isForgotten = false, refusal = null;
let told = [];
const MOST_ROWS = 40;
const posted = [], frames = [], shaken = [];
// The digest of each book that the desk has in these steps, by how many entries it has.
const sums = new Map(steps.filter(([name, value]) => name === "book" && value).map(([, value]) => [value.entries, crypto.createHash("sha256").update(JSON.stringify(value)).digest("hex")]));

const after = (then, wait = 0, every = 0) => { const it = { at: time + wait, then, every }; timers.push(it); return it; };
const settled = () => new Promise(then => setImmediate(() => setImmediate(then)));

async function pass(wait) {
  const end = time + wait;
  for (;;) {
    const [next] = timers.filter(it => it.at <= end).sort((a, b) => a.at - b.at);
    if (!next) break;
    time = Math.max(time, next.at);
    if (next.every) next.at = time + next.every;
    else timers = timers.filter(it => it !== next);
    next.then();
    await settled();
  }
  time = end;
  await settled();
}

// The answer to a line that isn't taken, once its time has come.
function refused() {
  const [status, wait] = refusal;
  refusal = null;
  return new Promise(then => after(() => then({ ok: false, status, text: async () => "" }), wait));
}

function answer(path, { method, headers, body } = {}) {
  if (!isReached) throw new Error("no network");
  const said = text => ({ ok: true, status: 200, text: async () => text, json: async () => JSON.parse(text) });
  if (path.startsWith("signed") && isForgotten) return { ok: false, status: 403, text: async () => "" };
  if (path === "book.json") {
    fetched += 1;
    if (book === null) throw new Error("no desk");
    return said(JSON.stringify(book).replace(...between));
  }
  if (method === "POST") posted.push([headers["X-At"], turned(Buffer.concat([Buffer.from("desk "), Buffer.from(headers["X-Tag"], "hex")]), Buffer.from(body)).toString()]);
  if (method === "POST" && !isAnswered) throw new Error("no answer");
  if (method === "POST" && refusal) return refused();
  return said("7\n");
}

// The events, which begin at once.
class Source {
  constructor() { this.heard = {}; page.source = this; after(() => isReached ? this.onopen() : this.onerror()); }
  addEventListener(name, then) { this.heard[name] = then; }
  close() { this.isClosed = true; }
}

async function load() {
  timers = [];
  const document = documentOf(), listeners = [];
  const window = {
    document, performance: { now: () => time }, Date: { now: () => time }, TextEncoder, TextDecoder, URLSearchParams, AbortController, Uint8Array, console, EventSource: Source,
    setTimeout: (then, wait) => after(then, wait), setInterval: (then, wait) => after(then, wait, wait), clearTimeout: it => { timers = timers.filter(one => one !== it); },
    fetch: async (path, options) => answer(path, options), location: { search: "", hash: "", pathname: "/" }, history: { replaceState() {} },
    sessionStorage: { getItem: key => kept.get(key), setItem: (key, value) => kept.set(key, value), removeItem: key => kept.delete(key) },
    addEventListener: (name, then) => listeners.push([name, then]), navigator: { vibrate: times => shaken.push(times) },
  };
  page = { document, listeners, context: vm.createContext(window), source: null };
  vm.runInContext(script, page.context);
  after(() => { if (isReached && !page.source.isClosed) page.source.heard.beat(); }, 2000, 2000);
  await settled();
  await pass(1);
}

// ---- Steps.
function happen(name, target) {
  const event = { type: name, target, detail: 0, timeStamp: time, preventDefault() {}, stopImmediatePropagation() {} };
  page.listeners.filter(it => it[0] === name).forEach(it => it[1](event));
  for (let it = target; it; it = it.parent) it.heard.filter(one => one[0] === name).forEach(one => one[1](event));
}

// The buttons that a selector as `#pads [data-pad="wide"]` names.
function buttons(within) {
  const [, id, key, value] = /^#([\w-]+)(?: \[data-(\w+)="([^"]*)"\]| button)?$/.exec(within);
  const top = page.document.getElementById(id);
  return (top.name === "button" ? [top] : top.all().filter(it => it.name === "button")).filter(it => key === undefined || it.dataset[key] === value);
}

// The newest tellings, with together at most so many rows, or one with more.
function newestTold() {
  let from = told.length - 1, rows = 0;
  while (from > 0 && rows + told[from].rows.length + told[from - 1].rows.length <= MOST_ROWS) {
    rows += told[from].rows.length;
    from -= 1;
  }
  return told.slice(Math.max(from, 0));
}

const STEPS = {
  async desk(state, tellings = []) {
    number += 1;
    const begun = told.length;
    told.push(...tellings.map((it, n) => ({ number: begun + n + 1, ...it })));
    const sum = sums.get(state.news.entries) || "0".repeat(64);
    const lines = [JSON.stringify(state), sum, ...(told.length > 0 ? [JSON.stringify(newestTold())] : []), ""];
    const hidden = turned(Buffer.from("page " + number), Buffer.from(lines.join("\n")));
    const tag = hmac(hmac(SECRET, "frame"), "page " + number + " ", hidden);
    frames.push(tag.toString("hex") + hidden.toString("hex"));
    await STEPS.again(number);
  },
  async again(number) {
    page.source.onmessage({ data: frames[number - 1], lastEventId: String(number) });
    await pass(400);
  },
  async begun() { told = []; },
  async book(value) { book = value; },
  async between(old, by) { between = [old, by]; },
  async tap(within, text) {
    await pass(500);
    const all = buttons(within).filter(it => it.attributes["aria-disabled"] !== "true");
    const one = all.find(it => text === undefined || (it.firstChild && it.firstChild.nodeValue === text) || it.shown === text);
    if (!one) throw new Error("no button " + text + " in " + within + ", but " + all.map(it => it.shown).join(" | "));
    happen("click", one);
    await settled();
  },
  pass,
  async rest(isDown) { happen(isDown ? "pointerdown" : "pointerup", null); },
  async cut() { page.source.onerror(); await pass(2600); },
  async reach(is) {
    isReached = is;
    if (!is && !page.source.isClosed) page.source.onerror();
    await pass(is ? 2600 : 1);
  },
  async silence() { isReached = false; },
  async answers(is) { isAnswered = is; },
  async forget() { isForgotten = true; },
  async status(...words) { refusal = words; },
  load,
  async type(line) {
    page.document.getElementById("line").value = line;
    happen("submit", page.document.getElementById("typed"));
    await settled();
  },
  async run(code) { return vm.runInContext(code, page.context); },
  async posted() { return posted.splice(0); },
  async fetched() { return fetched; },
  async shaken() { return shaken.splice(0); },
};

(async () => {
  const found = [];
  await load();
  for (const [name, ...words] of steps) {
    const what = await STEPS[name](...words);
    if (["run", "posted", "fetched", "shaken"].includes(name)) found.push(JSON.stringify(what === undefined ? null : what));
  }
  console.log("[" + found.join(",") + "]");
})().catch(why => { console.error(why.stack); process.exitCode = 1; });
