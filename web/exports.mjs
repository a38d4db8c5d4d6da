// @ts-check
// An export that comes without its match: its sheet and its lines, as it has them. Whether they are right the program tells: it prints of
// them the very export again, or another one.

/** The last key of an export's `info` that is never the sheet's, and the one behind it that is the Laws'. */
const [LAST_OWN, MAYBE] = ["balls_per_over", "outcome"];
const DAY = /^\d{4}-\d{2}-\d{2}$/;
const BARE = /^[A-Za-z0-9_-]+$/;

/**
 * A value as TOML has it.
 * @param {any} value
 * @returns {string}
 */
function toml_of(value) {
  if (typeof value === "string") return DAY.test(value) ? value : JSON.stringify(value).replace(/\x7f/g, "\\u007f");
  if (Array.isArray(value)) return "[" + value.map(toml_of).join(", ") + "]";
  if (typeof value === "object" && value) return "{" + Object.entries(value).map(field_of).join(", ") + "}";
  return String(value);
}

/** @param {[string, any]} field */
function field_of([key, value]) {
  return (BARE.test(key) ? key : JSON.stringify(key)) + " = " + toml_of(value);
}

/**
 * A table of a sheet.
 * @param {string} name
 * @param {Record<string, any>} values
 */
function table_of(name, values) {
  return ["[" + name + "]", ...Object.entries(values).map(field_of), ""];
}

/**
 * The limits as a sheet has them.
 * @param {Record<string, any>} limits
 */
function limits_of(limits) {
  const { powerplays, ...all } = limits;
  const own = Object.fromEntries(Object.entries(all).filter(([, value]) => value !== null));
  return powerplays && powerplays.length ? { ...own, powerplays: powerplays.map((/** @type {any} */ it) => Array.isArray(it) ? it : [it.first, it.last]) } : own;
}

/**
 * The sheet of an export. Where it doesn't tell an outcome of the sheet's, as earlier ones don't, the Laws' may be it.
 * @param {any} of
 * @param {boolean} has_outcome whether it was
 */
function sheet_of({ meta, info, yermudosh }, has_outcome) {
  const [home, away] = info.teams;
  const { data_version: _, ...more } = meta;
  const own = Object.entries(info).slice(Object.keys(info).indexOf(LAST_OWN) + 1);
  const outcome = "outcome" in yermudosh ? yermudosh.outcome : has_outcome ? info.outcome : undefined;
  const rest = { ...Object.fromEntries(own.filter(([key]) => key !== MAYBE)), ...(outcome === undefined ? {} : { outcome }) };
  const side = (/** @type {string} */ name) => ({ name, players: info.players[name] });
  return [
    ...["title = " + toml_of(yermudosh.title ?? info.event.name), "number = " + yermudosh.match_number, "innings = " + yermudosh.innings_a_side, ""],
    ...table_of("home", side(home)), ...table_of("away", side(away)),
    ...(yermudosh.limits && Object.keys(yermudosh.limits).length ? table_of("limits", limits_of(yermudosh.limits)) : []),
    ...table_of("info", rest), ...table_of("meta", more),
  ].join("\n");
}

/**
 * The sheets that an export may be of, and its lines. It throws where the text is no export.
 * @param {string} text
 */
export function match_of(text) {
  const all = JSON.parse(text);
  const lines = all.yermudosh.book.map((/** @type {{ line: string }} */ it) => it.line + "\n").join("");
  return { sheets: [false, true].map(it => sheet_of(all, it)), lines };
}
