// @ts-check
// Makes a match of this tablet's by the form (../making.mjs).
import { put_if } from "../dom.js";
import { offer_form, offer_sides } from "../making.js";
import { match_of } from "./code.js";
import { all_matches, put_match } from "./database.js";
import { new_key, read_sheet, toss_of } from "./program.js";

/**
 * Keeps a match of this tablet's, under the name of its store.
 * @param {Omit<import("./database.js").Match, "name" | "made" | "is_begun" | "met">} it
 */
export async function keep_match(it) {
  const name = `match-${await match_of(it.sheet, it.key)}-${it.station}`;
  const match = { ...it, name, made: Date.now(), is_begun: false, met: [] };
  await put_match(name, match);
  return match;
}

/**
 * Has a match be made by the form, which offers the sides of matches on this tablet, and hands it on.
 * @param {WebAssembly.Module} module
 * @param {(match: import("./database.js").Match) => void} made
 */
export async function begin_making(module, made) {
  const offered = offer_form({
    read: async text => ({ ...(await read_sheet(module, text)), toss: await toss_of(module, text) }),
    begin: async ({ title, text }) => {
      made(await keep_match({ station: "a", title, sheet: text, key: await new_key(module) }));
      return [];
    },
    fail: why => put_if("told", "The match can't be made: " + why.message),
  });
  const readings = [];
  for (const { sheet } of await all_matches()) readings.push((await read_sheet(module, sheet)).output);
  offer_sides(readings);
  await offered;
}
