// What the app's calls of files (web/app/machine.mjs) come to, over a store of stores.mjs.
//
// usage: node called.mjs <CALLS
//
// CALLS is [[name, ..]]. It prints [answer, number of the error] for each, as JSON.
import fs from "node:fs";
import { Run, calls_of } from "../../web/kernel.mjs";
import { Disk, disk_calls } from "../../web/app/machine.mjs";
import { Pool } from "../../web/app/pool.mjs";
import { Store } from "./stores.mjs";

const FLAGS = 0x1000, FACTS = 0xfff, TOLD = 8192n, DATA = 4096n;
const [names, ...handles] = new Store().handles;
const run = new Run({ words: [], streams: [0, 1, 2].map(() => ({})) });
run.memory = { buffer: new ArrayBuffer(1 << 16) };
const all = { ...calls_of(run), ...disk_calls(run, new Disk(new Pool(names, handles), {}, ""), () => undefined) };
const memory = new Uint8Array(run.memory.buffer), view = new DataView(run.memory.buffer);

const text = (it, at) => {
  memory.set(Buffer.from(it + "\0"), at);
  return BigInt(at);
};
const data = it => {
  memory.set(Buffer.from(it), Number(DATA));
  return [DATA, BigInt(it.length)];
};
const told = done => (done < 0 ? done : [Number(view.getBigUint64(Number(TOLD) + 40, true)), view.getUint16(Number(TOLD) + 28, true) >> 12]);
const does = {
  open: (path, flags) => all.open(text(path, 0), flags, 0n),
  close: file => all.close(file),
  pwrite: (file, bytes, at) => Number(all.pwrite(file, ...data(bytes), BigInt(at))),
  write: (file, bytes) => Number(all.write(file, ...data(bytes))),
  read: (file, count) => {
    const got = Number(all.read(file, DATA, BigInt(count)));
    return got < 0 ? got : Buffer.from(memory.slice(Number(DATA), Number(DATA) + got)).toString("latin1");
  },
  lseek: (file, at, how) => Number(all.lseek(file, BigInt(at), how)),
  ftruncate: (file, size) => all.ftruncate(file, BigInt(size)),
  fsync: file => all.fsync(file),
  size: file => told(all.statx(file, text("", 0), FLAGS, FACTS, TOLD)),
  look: path => told(all.statx(-100, text(path, 0), 0, FACTS, TOLD)),
  unlink: path => all.unlink(text(path, 0)),
  rename: (from, to) => all.rename(text(from, 0), text(to, 512)),
};
const given = JSON.parse(fs.readFileSync(0, "utf8"));
console.log(JSON.stringify(given.map(([name, ...more]) => {
  const answer = does[name](...more);
  return answer === -1 ? [-1, run.errno] : [answer, 0];
})));
