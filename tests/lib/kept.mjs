// What keeps the app (sw.js as tools/app makes it), over a store and a host of its own: two releases, one after the other.
//
// usage: node kept.mjs <WORKER
//
// WORKER is the worker's text, as JSON. It prints what is answered at each point, with the headers that isolate a page, as JSON.
import fs from "node:fs";
import vm from "node:vm";

const SCOPE = "https://x/app/";
const text = JSON.parse(fs.readFileSync(0, "utf8"));
const stored = new Map();
let host = "one"; // the release that the host has
const whole = it => new URL(it.url ?? it, SCOPE).href;

class Kept {
  constructor() {
    this.of = new Map();
  }

  async match(it) {
    return this.of.get(whole(it))?.clone();
  }

  async put(it, answer) {
    this.of.set(whole(it), answer);
  }

  async addAll(all) {
    for (const it of all) this.of.set(whole(it), new Response(host + " " + whole(it)));
  }
}

const caches = {
  open: async name => stored.get(name) ?? stored.set(name, new Kept()).get(name),
  keys: async () => [...stored.keys()],
  delete: async name => stored.delete(name),
};

class Request {
  constructor(url) {
    this.url = whole(url);
  }
}

// A worker of this release: what it answers to an event.
function begun(release) {
  const heard = {};
  const self = {
    addEventListener: (name, it) => { heard[name] = it; },
    skipWaiting: async () => undefined,
    clients: { claim: async () => undefined },
    registration: { scope: SCOPE },
    location: { origin: "https://x" },
  };
  const fetch = async it => new Response("host " + it.url);
  vm.runInNewContext(text.replace(/const RELEASE = "\w+"/, `const RELEASE = "${release}"`), { self, caches, URL, Request, Response, Headers, fetch });
  return async (name, more = {}) => {
    let [work, answer] = [null, null];
    heard[name]({ waitUntil: it => { work = it; }, respondWith: it => { answer = it; }, ...more });
    await work;
    return answer;
  };
}

async function got(worker, path, method = "GET") {
  const it = await worker("fetch", { request: { url: whole(path), method } });
  return it && [await it.text(), it.headers.get("Cross-Origin-Embedder-Policy"), it.headers.get("Cross-Origin-Opener-Policy")];
}

// What a worker says to a page that tells it something.
function said(worker, data) {
  return new Promise(resolve => worker("message", { data, ports: [{ postMessage: resolve }] }));
}

const out = {};
const one = begun("one");
await one("install");
out.first = await got(one, "./?x=1");
host = "two";
const two = begun("two");
await two("install");
out.before = await got(two, "index.html");
out.kept = [...stored.keys()];
out.which = await said(two, "which");
out.still = await got(two, "./");
await said(two, "take");
out.after = await got(two, "./");
out.left = [...stored.keys()];
out.host = await got(two, "other.txt");
out.post = await got(two, "./", "POST");
out.away = await got(two, "https://y/app/");
console.log(JSON.stringify(out));
