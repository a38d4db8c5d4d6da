// @ts-check
// A station's words to the program, and in what it tells.
import { PORTS } from "./ports.js";

const HOME = "127.0.0.1:";
const SERVE = "127.0.0.1:8001";

/**
 * Whether a station is a desk.
 * @param {string} station
 */
export const is_desk = station => station === "a" || station === "b";

/**
 * How a station is called.
 * @param {string} station
 */
export const called = station => (is_desk(station) ? "scorer " + station.toUpperCase() : "board " + station);

/**
 * The program's words for a station.
 * @param {string} station
 */
export function words_of(station) {
  const at = (/** @type {string} */ it) => HOME + PORTS[it];
  const all = ["--sheet", "sheet.toml", "--key", "key.txt", "--at", at(station), "--serve", SERVE];
  if (!is_desk(station)) return ["board", ...all, "--desk-a", at("a"), "--desk-b", at("b")];
  return ["desk", ...all, "--desk", station, "--file", station + ".votes", "--other", at(station === "a" ? "b" : "a"), "--board", at("1"), "--board", at("2")];
}

/**
 * By what the sheet and the key are read to each other: what the desk tells at its start.
 * @param {string} told
 */
export function prints_of(told) {
  return ["sheet", "key"].map(name => new RegExp(`^${name} [0-9a-f]{4}-[0-9a-f]{4}\\b`, "m").exec(told)?.[0]).filter(it => it).join(", ");
}
