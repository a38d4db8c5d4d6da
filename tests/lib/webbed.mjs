// Runs the program's module over files in memory, once for each words that are given on standard input, and prints what came of each.
//
// usage: node webbed.mjs MODULE SHELL wide|narrow
//
// MODULE is a page that has it, or itself; SHELL the folder of the kernel and of what makes it narrow. Given: { files: { name: base64 },
// runs: [[words, input]] }. A line a run: [status, output, errors], both in base64; the status of one that was stopped is why.
import fs from "node:fs";
import { pathToFileURL } from "node:url";
import v8 from "node:v8";
import { module_of } from "../../web/ground.mjs";

const [path, shell, memory] = process.argv.slice(2);
if (memory === "wide") v8.setFlagsFromString("--experimental-wasm-memory64");
const { run_in_memory } = await import(pathToFileURL(`${shell}/kernel.mjs`).href);
const { narrowed } = await import(pathToFileURL(`${shell}/narrow.mjs`).href);
const bytes = path.endsWith(".html") ? module_of(path) : new Uint8Array(fs.readFileSync(path));
const module = new WebAssembly.Module(memory === "wide" ? bytes : narrowed(bytes));
const given = JSON.parse(fs.readFileSync(0, "utf8"));
const of = text => new Uint8Array(Buffer.from(text, "base64"));
const files = Object.fromEntries(Object.entries(given.files).map(([name, bytes]) => [name, of(bytes)]));
const base64 = async blob => Buffer.from(await blob.arrayBuffer()).toString("base64");

for (const [words, input] of given.runs) {
  try {
    const { status, output, errors } = await run_in_memory(module, words, files, of(input));
    console.log(JSON.stringify([status, await base64(output), await base64(errors)]));
  } catch (why) {
    console.log(JSON.stringify([String(why), "", ""]));
  }
}
