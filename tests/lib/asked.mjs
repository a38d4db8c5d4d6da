// Asks the kernel for calls one after the other, and writes what each comes to.
//
// usage: node asked.mjs OUT <CALLS
//
// CALLS is { place, calls, files }: the place `machine`, or `memory` over files by their names in base64. A call is a name and its values;
// a path and bytes that are written are texts, the latter in base64. OUT gets a list: of each what it answered, the error's number where it
// is -1, and what was read.
import fs from "node:fs";
import { machine } from "../../web/ground.mjs";
import { Run, calls_of, failure, in_memory } from "../../web/kernel.mjs";

const [PATH, MORE, DATA] = [1024, 512, 65536];
const asked = JSON.parse(fs.readFileSync(0, "utf8"));
const base64 = text => new Uint8Array(Buffer.from(text, "base64"));
const throwing = code => ({ read: () => { throw failure(code); }, write: () => { throw failure(code); }, sync: () => { throw failure(code); }, close: () => { throw failure(code); } });
const places = {
  machine: () => machine(asked.words ?? []),
  memory: () => in_memory([], Object.fromEntries(Object.entries(asked.files).map(([name, text]) => [name, base64(text)])), base64(asked.input), [[], []]),
  failing: () => {
    const refused = code => { throw failure(code); };
    return { words: [], streams: [], open: code => throwing(code), make: refused, look: refused, remove: refused };
  },
};
const run = new Run(places[asked.place]());
run.memory = new WebAssembly.Memory({ initial: 64 });
const calls = calls_of(run);
const memory = () => new Uint8Array(run.memory.buffer);
const put = (at, bytes) => { memory().set(bytes, at); return BigInt(at); };
const path = text => put(PATH, [...Buffer.from(text, "utf8"), 0]);
const more = number => { new DataView(run.memory.buffer).setInt32(MORE, number, true); return BigInt(MORE); };
const got = count => Buffer.from(memory().slice(DATA, DATA + Math.max(Number(count), 0))).toString("base64");
const ways = {
  open: (text, flags, rights) => calls.open(path(text), flags, more(rights)),
  dup: (number, least) => calls.fcntl(number, 1030, more(least)),
  close: number => calls.close(number),
  fsync: number => calls.fsync(number),
  lseek: number => calls.lseek(number, 0n, 1),
  write: (number, text) => calls.write(number, put(DATA, base64(text)), BigInt(base64(text).length)),
  read: (number, count) => calls.read(number, BigInt(DATA), BigInt(count)),
  statx: (text, flags) => calls.statx(-100, path(text), flags, 0xfff, BigInt(DATA)),
  unlink: text => calls.unlink(path(text)),
  getentropy: count => calls.getentropy(BigInt(DATA), BigInt(count)),
  word: (which, room) => calls.rattle_arg(BigInt(which), BigInt(DATA), BigInt(room)),
  env: () => calls.rattle_env(path("HOME"), BigInt(DATA), 16n),
  signal: () => calls.__sysv_signal(13, 1n),
  limit: () => calls.getrlimit(7, BigInt(DATA)),
};
const answers = asked.calls.map(([name, ...values]) => {
  const answer = Number(ways[name](...values));
  const data = name === "read" ? got(answer) : name === "word" ? got(answer === -2 ? values[1] : answer) : name === "limit" ? got(16) : name === "statx" && answer === 0 ? got(256) : "";
  return [answer, answer === -1 && ["word", "env"].includes(name) === false ? calls.rattle_errno() : 0, data];
});
fs.writeFileSync(process.argv[2], JSON.stringify(answers));
