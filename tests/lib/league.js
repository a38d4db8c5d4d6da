// Runs the script of the league's page over a document of its own, and prints what it shows, as one JSON value.
//
// It reads, as JSON from standard input, the page, the list that boards.js tells or null, and looks: of each how many seconds went by since
// the one before, and by its name each file: its text, how many seconds old it is, and whether it is a script; one that isn't there isn't
// there. Of each look it tells what is shown: the elements of the list, as [name, class, link, inner ones or text].
"use strict";
const fs = require("fs"), vm = require("vm");
const [file, league, looks] = JSON.parse(fs.readFileSync(0));
const html = fs.readFileSync(file, "utf-8");
const script = html.slice(html.lastIndexOf("<script>") + 8, html.lastIndexOf("</script>"));

class Element {
  constructor(name) { Object.assign(this, { name, nodes: [], className: "", hidden: false }); }
  get textContent() { return this.nodes.map(it => it instanceof Element ? it.textContent : it).join(""); }
  set textContent(text) { this.nodes = text === "" ? [] : [String(text)]; }
  append(...nodes) {
    this.nodes.push(...nodes);
    for (const it of nodes) if (it.name === "script") run(it);
  }
  replaceChildren(...nodes) { this.nodes = nodes; }
  remove() { }
  get told() { return [this.name, this.className, this.href || "", this.nodes.every(it => it instanceof Element) ? this.nodes.map(it => it.told) : this.textContent]; }
}

let time = 0, files = {}, next = null;
const ids = new Map([...html.matchAll(/<(\w+)[^>]* id="([\w-]+)"( hidden)?/g)].map(([, name, id, hidden]) => [id, Object.assign(new Element(name), { hidden: Boolean(hidden) })]));
const document = { title: "", head: new Element("head"), createElement: name => new Element(name), getElementById: id => ids.get(id) };

function run(made) {
  const found = files[made.src.split("?")[0]];
  if (!found) return setImmediate(made.onerror);
  vm.runInContext(found.text, page);
  setImmediate(made.onload);
}

async function fetch(name) {
  const found = files[name];
  if (!found) return { ok: false, status: 404 };
  const fields = { "Last-Modified": new Date(1e12 + time - 1000 * found.age).toUTCString(), Date: new Date(1e12 + time).toUTCString() };
  return { ok: true, text: async () => found.text, headers: { get: name => fields[name] || null } };
}

const window = {
  document, fetch, URL, Date, JSON, AbortSignal, console, location: { href: "http://league.example/today/" }, performance: { now: () => time },
  setTimeout: (then, wait, ...words) => { next = () => then(...words); },
};
window.window = window;
if (league) window.league = league;
const page = vm.createContext(window);

(async () => {
  const shown = [];
  for (const [n, look] of looks.entries()) {
    time += 1000 * look.seconds;
    files = look.files;
    const before = next;
    if (n === 0) vm.runInContext(script, page);
    else next();
    for (let turns = 0; next === before && turns < 1000; turns += 1) await new Promise(setImmediate);
    const whole = id => ({ hidden: ids.get(id).hidden, text: ids.get(id).textContent, href: ids.get(id).href || "" });
    shown.push({ matches: ids.get("matches").nodes.map(it => it.told), title: whole("title"), season: whole("season"), missing: whole("missing") });
  }
  console.log(JSON.stringify(shown));
})().catch(why => { console.error(why.stack); process.exitCode = 1; });
