// @ts-check
// The sheet of what was typed in the form (making.html). Nothing is judged here: what is wrong with a sheet the program's word `sheet` says.

/**
 * What was typed, by the fields' names. The toss is as `home bat`, or empty.
 * @typedef {Record<"home" | "away" | "home_players" | "away_players" | "title" | "innings" | "overs" | "overs_a_bowler" | "toss", string> & { free_hits: boolean }} Form
 */

/** @typedef {{ winner: string, decision: string }} Toss a toss, as an export has it */

/**
 * A sheet, what the program must print of it if it reads what was typed, and the toss that an export must have.
 * @typedef {{ title: string, text: string, reading: string, toss: Toss | null }} Sheet
 */

/**
 * What the program says of a sheet: what it reads, or all that is wrong; and the toss of an export.
 * @typedef {{ output?: string, faults: string[], toss?: Toss | null }} Read
 */

const PLAYERS = 11;
/** @type {("home" | "away")[]} */
export const SIDES = ["home", "away"];

// What lists have before a name, a number, and behind it: that he is the captain or keeps the wicket.
const NUMBER = /^\d{1,2}[.)]?\s+|^\d{1,2}[.)]/;
const MARKS = /( *(\((c|vc|wk?|c ?[&/] ?wk?|wk? ?[&/] ?c)\)|[*†]))+$/i;

/**
 * The names of a list: one a line, or with commas between; numbers before them and marks behind them are left out.
 * @param {string} text
 */
function players(text) {
  return text.split(/[,;\t\r\n]/).map(it => it.trim().replace(NUMBER, "").trim().replace(MARKS, "").trim()).filter(it => it);
}

/**
 * A list with a name for each player that isn't known yet.
 * @param {string[]} names
 */
const filled = names => [...names, ...Array.from({ length: Math.max(0, PLAYERS - names.length) }, (_, more) => "Player " + (names.length + more + 1))];

/**
 * A text of TOML.
 * @param {string} text
 */
const quoted = text => JSON.stringify(text);

/**
 * A number as it is, or else a text, so that the program says what is wrong with it.
 * @param {string} text
 */
const valued = text => (/^[0-9]{1,18}$/.test(text) ? String(BigInt(text)) : text === "true" ? text : quoted(text));

/**
 * What stands in the sheet.
 * @param {Form} form
 */
function chosen(form) {
  const sides = SIDES.map(key => ({ key, name: form[key].trim(), players: filled(players(form[key === "home" ? "home_players" : "away_players"])) }));
  const limits = [["overs", form.overs.trim()], ["overs_a_bowler", form.overs_a_bowler.trim()], ["free_hits", form.free_hits ? "true" : ""]].filter(([, it]) => it);
  const [winner, decision] = form.toss.split(" ");
  const toss = winner ? { winner: sides[winner === "home" ? 0 : 1].name, decision } : null;
  return { title: form.title.trim() || `${sides[0].name} v ${sides[1].name}`, innings: form.innings.trim() || "1", sides, limits, toss };
}

/**
 * The sheet of a form.
 * @param {Form} form
 * @param {string} number
 * @returns {Sheet}
 */
export function sheet_of(form, number) {
  const { title, innings, sides, limits, toss } = chosen(form);
  const rows = [`title = ${quoted(title)}`, `number = ${number}`, `innings = ${valued(innings)}`];
  const read = [`title ${title}`, `number ${number}`, `innings ${valued(innings)}`];
  for (const { key, name, players: names } of sides) {
    rows.push("", `[${key}]`, `name = ${quoted(name)}`, "players = [", ...names.map(it => `    ${quoted(it)},`), "]");
    read.push(`${key} ${name}`, ...names.map((it, place) => `${place + 1} ${it}`));
  }
  if (limits.length) rows.push("", "[limits]", ...limits.map(([key, it]) => `${key} = ${valued(it)}`));
  read.push(...limits.map(([key, it]) => `${key} ${valued(it)}`));
  if (toss) rows.push("", "[info]", `toss = { winner = ${quoted(toss.winner)}, decision = ${quoted(toss.decision)} }`);
  return { title, text: rows.join("\n") + "\n", reading: read.join("\n") + "\n", toss };
}

/**
 * What is wrong with a sheet of which the program says this.
 * @param {Sheet} sheet
 * @param {Read} read
 */
export function faults_of({ reading, toss }, read) {
  const is_read = read.output === reading && read.toss?.winner === toss?.winner && read.toss?.decision === toss?.decision;
  return read.faults.length || is_read ? read.faults : ["sheet: the program reads something else than what stands here: take plainer letters"];
}

/**
 * Which field a text of the program speaks of.
 * @param {string} fault
 */
export function field_of(fault) {
  const [, side, part] = /^(home|away), (\w+)/.exec(fault) ?? [];
  if (side) return part === "name" ? side : side + "_players";
  return /^(title|innings)(?=:)/.exec(fault)?.[1] ?? /^limits, (overs_a_bowler|overs)\b/.exec(fault)?.[1] ?? "other";
}

/**
 * The sides of a sheet, as the program reads it.
 * @param {string} reading
 */
export function sides_of(reading) {
  /** @type {{ name: string, players: string[] }[]} */
  const found = [];
  for (const row of reading.split("\n")) {
    const [, word, rest] = /^(\S+) (.*)$/.exec(row) ?? [];
    if (word === "home" || word === "away") found.push({ name: rest, players: [] });
    else if (found.length && /^\d+$/.test(word ?? "") && found[found.length - 1].players.length < PLAYERS) found[found.length - 1].players.push(rest);
  }
  return found;
}

/** The number of a match that is made now: its minute. */
export function number_now(now = new Date()) {
  const two = (/** @type {number} */ it) => String(it).padStart(2, "0");
  return [now.getFullYear(), ...[now.getMonth() + 1, now.getDate(), now.getHours(), now.getMinutes()].map(two)].join("");
}
