// The names of a pool's files (web/app/pool.mjs) after each step, where each call of the store fails in each way, and after a cut. It says how many cuts.
import { Pool } from "../../web/app/pool.mjs";
import { Store } from "./stores.mjs";

const bytes = new Uint8Array([1, 2]);
const steps = [it => it.make("/x"), it => { it.node("/x").write(bytes, 0); it.node("/x").sync(); }, it => it.make("/y"), it => it.rename("/x", "/y"), it => it.remove("/y"), it => it.make("/z"),
  it => it.rename("/z", "/x"), it => it.make("/q")];
const pool_of = store => { const [names, ...handles] = store.handles; return new Pool(names, handles); };
const after = (store, count) => { const it = pool_of(store); steps.slice(0, count).forEach(step => step(it)); return it; };
const shown = images => JSON.stringify(Object.entries(pool_of(new Store(images)).copies()).map(([path, it]) => [path, [...it]]).sort());
const whole = steps.map((_, count) => { const store = new Store(); after(store, count); return shown(store.images()); });
whole.push((() => { const store = new Store(); after(store, steps.length); return shown(store.images()); })());
let cuts = 0;
for (const [number, step] of steps.entries()) {
  const before = new Store();
  after(before, number);
  const many = new Store();
  after(many, number + 1);
  for (let call = before.calls.length; call < many.calls.length; call++) for (const how of ["refused", "full", "short", "late"]) {
    const store = new Store([], { call, how });
    const mine = after(store, number);
    let failed = "";
    try { step(mine); } catch (why) { failed = why.code; }
    if (!["", "EIO", "ENOSPC"].includes(failed) || (how === "full" && failed !== "ENOSPC")) throw new Error(`step ${number}, call ${call}, ${how}: ${failed}`);
    const now = failed ? [whole[number], whole[number + 1]] : [whole[number + 1]];
    // a step that writes may have written a part
    if (number !== 1) for (const later of [() => 0, all => all, all => all >> 1, all => Math.max(0, all - 1)]) {
      cuts++;
      if (!now.includes(shown(store.images(later)))) throw new Error(`step ${number}, call ${call}, ${how}: after a cut ${shown(store.images(later))}`);
    }
    if (JSON.stringify(mine.paths().sort()) !== JSON.stringify(JSON.parse(failed ? whole[number] : whole[number + 1]).map(([path]) => path))) throw new Error(`step ${number}, ${how}: it says ${mine.paths()}`);
  }
}
console.log(JSON.stringify(cuts + " cuts"));
