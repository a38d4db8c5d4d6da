// Two tablets in node: the program in two threads as the app has it (web/app/running.mjs), each over a store of stores.mjs; datagrams go between them by this one.
//
// usage: node tablets.mjs PAGE <PLANS
//
// PLANS is a list of { desk, call, how }, or of null for none. A line a plan, as JSON: the calls of desk A's store, how each desk ended and what it told, each
// vote that desk A sent with what its disk had then, and its disk after its end; in base64.
import fs from "node:fs";
import { fileURLToPath } from "node:url";
import { Worker, isMainThread, parentPort, workerData } from "node:worker_threads";
import { module_of } from "../../web/ground.mjs";
import { narrowed } from "../../web/narrow.mjs";
import { PORTS } from "../../web/app/ports.mjs";
import { words_of } from "../../web/app/words.mjs";
import { Disk, Stopped } from "../../web/app/machine.mjs";
import { Pool } from "../../web/app/pool.mjs";
import { KINDS, Ring } from "../../web/app/ring.mjs";
import { run_over } from "../../web/app/running.mjs";
import { Store } from "./stores.mjs";

const LINES = ["innings home", "in 1", "in 2", "ball 7 bat 4", "ball 7 bat 0"];
const MOST = 20_000;
const base64 = bytes => Buffer.from(bytes).toString("base64");

/** A station in its thread. */
function keep({ station, memory, module, files, images, plan }) {
  const store = new Store(images, plan);
  const tell = (what, more = {}) => parentPort.postMessage({ what, ...more, ...(what === "datagram" ? { images: store.images() } : {}) });
  let [status, why] = [null, ""];
  const votes = `/${station}.votes`;
  try {
    const [names, ...handles] = store.handles;
    const pool = new Pool(names, handles);
    status = run_over({ memory, module, words: words_of(station), votes, is_traced: true }, new Disk(pool, files, votes), tell);
  } catch (error) {
    if (!(error instanceof Stopped)) why = String(error);
  }
  tell("ended", { status, why, calls: store.calls, after: store.images(), half: store.images(count => count >> 1) });
}

/** A tablet as this thread has it. */
class Tablet {
  constructor(station, module, files, images = [], plan = null) {
    [this.station, this.rows, this.errors, this.sent, this.other, this.end] = [station, "", "", [], null, null];
    this.memory = Ring.memory(1 << 16);
    this.ring = new Ring(this.memory);
    this.worker = new Worker(fileURLToPath(import.meta.url), { workerData: { station, memory: this.memory, module, files, images, plan } });
    this.worker.on("message", it => this.heard(it));
  }

  heard(it) {
    if (it.what === "out") this[it.which === 1 ? "rows" : "errors"] += Buffer.from(it.bytes).toString();
    if (it.what === "ended") this.end = it;
    if (it.what !== "datagram") return;
    this.sent.push({ bytes: it.bytes, images: it.images });
    if (it.to === PORTS[this.other.station]) this.other.ring.put(KINDS.datagram, it.from, it.bytes);
  }

  type(line) {
    this.ring.put(KINDS.type, 0, Buffer.from(line + "\n"));
  }
}

async function until(holds, told = () => "") {
  const end = Date.now() + MOST;
  while (!holds() && Date.now() < end) await new Promise(resolve => setTimeout(resolve, 2));
  if (!holds()) throw new Error("not in time: " + told());
}

/** The place where a desk waits for its scorer; nothing where it waits for the other. */
function place_of({ rows }) {
  const [, place, how] = [...rows.matchAll(/^(\d+) (next|pending|agreed)/gm)].pop() ?? [];
  return how === "next" ? Number(place) : how === "agreed" ? Number(place) + 1 : null;
}

/** Both type what they lack of these lines, until both have agreed all; where desk A ends, no more. */
async function play(a, b, lines) {
  [a.other, b.other] = [b, a];
  const typed = new Set();
  const is_done = () => a.end || [a, b].every(it => place_of(it) === lines.length);
  await until(() => {
    for (const it of [a, b]) {
      const place = place_of(it);
      if (place === null || place >= lines.length || typed.has(it.station + place)) continue;
      typed.add(it.station + place);
      it.type(lines[place]);
    }
    return is_done();
  }, () => [a, b].map(it => it.rows + it.errors).join("; "));
}

async function stop(...tablets) {
  tablets.forEach(it => it.ring.put(KINDS.stop));
  await until(() => tablets.every(it => it.end));
  await Promise.all(tablets.map(it => it.worker.terminate()));
}

/** The votes file on a disk; nothing where there is none. */
function votes_on(images) {
  const [names, ...handles] = new Store(images).handles;
  const pool = new Pool(names, handles);
  return pool.paths().includes("/a.votes") ? base64(pool.bytes("/a.votes")) : null;
}

async function tried(module, files, plan) {
  const [a, b] = [new Tablet("a", module, files, [], plan), new Tablet("b", module, files)];
  await play(a, b, LINES);
  await stop(a, b);
  const again = [new Tablet("a", module, files, a.end.after), new Tablet("b", module, files, b.end.after)];
  await play(...again, LINES);
  await stop(...again);
  return {
    calls: a.end.calls, status: a.end.status, why: a.end.why, rows: a.rows, errors: a.errors,
    sent: a.sent.map(it => [base64(it.bytes), votes_on(it.images)]), after: votes_on(a.end.after), half: votes_on(a.end.half), again: again[0].rows, told: again[0].errors,
  };
}

if (isMainThread) {
  const module = new WebAssembly.Module(narrowed(module_of(process.argv[2])));
  const text = name => new Uint8Array(fs.readFileSync(new URL("../../" + name, import.meta.url)));
  const files = { "/sheet.toml": text("examples/sheet.toml"), "/key.txt": Buffer.from("0123456789abcdef".repeat(4) + "\n") };
  for (const plan of JSON.parse(fs.readFileSync(0, "utf8"))) console.log(JSON.stringify(await tried(module, files, plan)));
  process.exit(0);
} else keep(workerData);
