// Runs the program's module over the machine's files, once for each plan of a call that fails (tests/shim), and prints what came of each.
//
// usage: node failing.mjs PAGE <RUNS
//
// RUNS is [[words, input, plan]], the input in base64, a plan as SHIM_FAIL has it. A line a run: [status, output, errors, whether the plan's
// call was met, the calls], the texts in base64.
import fs from "node:fs";
import { machine, module_of } from "../../web/ground.mjs";
import { Run, calls_of, has_wide_memory, imports_of, run_begun } from "../../web/kernel.mjs";
import { narrowed } from "../../web/narrow.mjs";

const EIO = 5;
const STREAMS = ["stdin", "stdout", "stderr"];
// Those that answer how many bytes they moved.
const COUNTED = ["read", "write", "lseek"];
const bytes = module_of(process.argv[2]);
const module = new WebAssembly.Module(has_wide_memory() ? bytes : narrowed(bytes));

function held(text) {
  let [left, told] = [Buffer.from(text, "base64"), []];
  const read = count => { const some = left.subarray(0, count); left = left.subarray(some.length); return some; };
  return { read, told, write: some => told.push(Buffer.from(some)) && some.length };
}

// The calls of a run, of which the plan's one fails as tests/shim has it fail.
function played(run, plan) {
  const [call, label, number, how] = plan.split(",");
  const [labels, noted] = [new Map(STREAMS.map((it, at) => [at, it])), []];
  let met = 0;
  const told = (name, given) => (["open", "statx", "unlink"].includes(name) ? run.text(given[Number(name === "statx")]).split("/").pop() : name === "getentropy" ? "random" : labels.get(given[0]) ?? "-");
  const less = (name, given) => given.map((it, at) => (at !== 2 ? it : name === "read" ? 1n : (it + 1n) / 2n));
  const failed = (name, errno) => { run.errno = errno; return COUNTED.includes(name) ? -1n : -1; };
  const made = (name, real, given) => {
    const answer = real(...given);
    // a second number of a pipe is `stdin`'s, as in the shim
    if (Number(answer) >= 0 && (name === "open" || name === "fcntl")) labels.set(Number(answer), name === "open" ? told(name, given) : "stdin");
    return answer;
  };
  const asked = (name, real) => (...given) => {
    const of = told(name, given);
    noted.push(name + " " + of);
    const is_due = name === call && of === label && (++met, Number(number) === 0 ? met % 3 === 1 : met === Number(number));
    if (!is_due) return made(name, real, given);
    if (how === "short") return made(name, real, less(name, given));
    if (how === "torn" || how === "made") made(name, real, how === "torn" ? less(name, given) : given);
    return failed(name, how === "torn" || how === "made" ? EIO : Number(how));
  };
  const shimmed = ["open", "fcntl", "close", "read", "write", "lseek", "fsync", "statx", "unlink", "getentropy"];
  const calls = Object.fromEntries(Object.entries(calls_of(run)).map(([name, real]) => [name, shimmed.includes(name) ? asked(name, real) : real]));
  return { calls, noted, is_met: () => met >= Math.max(Number(number), 1) };
}

for (const [words, input, plan] of JSON.parse(fs.readFileSync(0, "utf8"))) {
  const streams = [held(input), held(""), held("")];
  const run = new Run({ ...machine(words), streams });
  const { calls, noted, is_met } = played(run, plan);
  const instance = new WebAssembly.Instance(module, imports_of(module, calls));
  let status;
  try {
    status = run_begun(run, instance);
  } catch (why) {
    status = String(why);
  }
  const text = it => Buffer.concat(it.told).toString("base64");
  console.log(JSON.stringify([status, text(streams[1]), text(streams[2]), is_met(), noted]));
}
