// @ts-check
// The rehearsal as it is shown: two desks and a board side by side, what is on its way between them, and the match as both have written it.
import { at, breath, element, field, put_if, save } from "./dom.mjs";
import { Rehearsal } from "./rehearsal.mjs";

/**
 * @typedef {import("./rehearsal.mjs").Desk} Desk
 * @typedef {(words: string[], files: import("./files.mjs").Chosen[], input?: Uint8Array) => Promise<import("./files.mjs").Done>} Program
 */

const MOST_AT_ONCE = 10;
/**
 * What a desk's answers say to its scorer.
 * @type {Record<string, string>}
 */
const SAID = {
  pending: "written, and on its way: the other scorer hasn't yet", agreed: "agreed", differ: "the other wrote another line: write it again, both",
};

/**
 * The rehearsal that is shown, if any.
 * @type {Shown | null}
 */
let current = null;

class Shown {
  /**
   * @param {Uint8Array} sheet
   * @param {Program} program
   * @param {(match: import("./files.mjs").Match) => Promise<void>} show_match
   */
  constructor(sheet, program, show_match) {
    this.sheet = /** @type {import("./files.mjs").Chosen} */ ({ name: "sheet.toml", bytes: sheet, kind: "sheet", desk: null });
    this.program = program;
    this.show_match = show_match;
    this.lines = (at("example-lines").textContent ?? "").trim().split("\n");
    /**
     * Each scorer's last answer.
     * @type {Record<Desk, string>}
     */
    this.said = { a: "", b: "" };
    this.asked = 0; // what isn't done yet
    this.last = Promise.resolve();
    this.rehearsal = new Rehearsal(schedule => this.play(schedule));
  }

  /** @param {string} schedule */
  async play(schedule) {
    const bytes = new TextEncoder().encode(schedule);
    const file = /** @type {import("./files.mjs").Chosen} */ ({ name: "schedule.txt", bytes, kind: "lines", desk: null });
    const done = await this.program(["replay", "--sheet", this.sheet.name, "--schedule", file.name, "--boards", "1"], [this.sheet, file]);
    return { ...done, output: await done.output.text() };
  }

  get world() {
    return this.rehearsal.world;
  }

  /** The line that comes next in the examples' innings. */
  get next() {
    return this.lines[this.world.agreed.length] ?? "";
  }

  /**
   * Does something that adds events, and shows what came of it, once all is done that was asked for before: so nothing is lost that is
   * typed or pressed meanwhile.
   * @param {() => Promise<void>} work
   */
  does(work) {
    this.asked++;
    at("rehearsal").ariaBusy = "true";
    const mine = this.last.then(() => this.turn(work));
    this.last = mine.catch(() => undefined);
    return mine;
  }

  /** @param {() => Promise<void>} work */
  async turn(work) {
    try {
      if (!this.is_shown()) return;
      await work();
      if (field("at-once").checked) await this.rehearsal.settle();
      await this.show();
    } finally {
      this.asked--;
      if (this.is_shown()) at("rehearsal").ariaBusy = String(this.asked > 0);
    }
  }

  /** Whether it is still this rehearsal that is shown. */
  is_shown() {
    return current === this;
  }

  /** @param {Desk} desk @param {string} line */
  async pen(desk, line) {
    const answer = await this.rehearsal.pen(desk, line);
    this.said[desk] = answer === null ? "“" + line + "” is no line" : answer.startsWith("refused") ? answer + ": “" + line + "”" : "";
  }

  /** Both write the next line; where one can't, the other alone. */
  async write_both() {
    const line = this.next;
    for (const desk of /** @type {Desk[]} */ (["a", "b"])) if (this.world.runs[desk]) await this.pen(desk, line);
  }

  /**
   * How a desk stands, in words.
   * @param {Desk} desk
   */
  stands(desk) {
    if (!this.world.runs[desk]) return "It has no power. Its votes are in its file.";
    const last = this.world.answers[this.last_of(desk)] ?? "";
    const line = this.world.penned[desk];
    const is_in_book = this.rehearsal.length_of(desk) === this.world.agreed.length && this.world.agreed[this.world.agreed.length - 1] === line;
    return this.said[desk] || (line ? line + ": " + (is_in_book && last !== "differ" ? "agreed" : SAID[last] ?? last) : "Nothing is written.");
  }

  /**
   * The last event that told this desk how its line stands.
   * @param {Desk} desk
   */
  last_of(desk) {
    const told = (/** @type {string} */ event, /** @type {number} */ number) =>
      (event.startsWith("pen " + desk) || (event.startsWith("give") && event.endsWith(" " + desk))) && ["pending", "agreed", "differ"].includes(this.world.answers[number]);
    return this.world.events.reduce((last, event, number) => (told(event, number) ? number : last), -1);
  }

  /** The board's six lines, of the entries that it has: what `check` prints of them. */
  async board_rows() {
    const lines = this.world.agreed.slice(0, this.rehearsal.length_of("1"));
    const { output } = await this.program(["check"], [], new TextEncoder().encode(lines.map(it => it + "\n").join("")));
    return output.text();
  }

  /** @param {Desk} desk */
  desk_shown(desk) {
    const [all, head, form, line] = [element("section", "", "station"), element("h3", "Desk " + desk.toUpperCase()), element("form"), element("input")];
    const [label, write, power] = [element("label", "A line of scorer " + desk.toUpperCase() + "'s", "named"), element("button", "Write it"), element("button", this.world.runs[desk] ? "Cut its power" : "Begin it again")];
    const stands = element("p", this.stands(desk), "stands");
    write.id = "write-" + desk;
    line.type = "text";
    line.id = label.htmlFor = "line-" + desk;
    line.value = this.next;
    line.autocomplete = "off";
    line.spellcheck = false;
    write.disabled = line.disabled = !this.world.runs[desk];
    all.classList.toggle("down", !this.world.runs[desk]);
    form.onsubmit = event => {
      event.preventDefault();
      const typed = line.value;
      this.does(() => this.pen(desk, typed));
    };
    power.type = "button";
    power.id = "power-" + desk;
    power.onclick = () => this.does(async () => {
      this.said[desk] = "";
      if (this.world.runs[desk]) await this.rehearsal.stop(desk);
      else await this.rehearsal.start(desk);
    });
    const row = element("p", "", "row");
    row.append(write, power);
    form.append(label, line, row);
    all.append(head, stands, element("p", "Its book: " + (this.world.books[desk] ?? "0 0 for 0"), "quiet"), form);
    return all;
  }

  /** @param {string} rows */
  board_shown(rows) {
    const all = element("section", "", "station");
    all.append(element("h3", "The board"), element("pre", rows), element("p", this.rehearsal.length_of("1") + " entries that both have written", "quiet"));
    return all;
  }

  /** Shows all; what had the keyboard has it again. */
  async show() {
    const focused = document.activeElement?.id;
    const rows = await this.board_rows();
    if (!this.is_shown()) return;
    at("stations").replaceChildren(this.desk_shown("a"), this.desk_shown("b"), this.board_shown(rows));
    at("came").textContent = "Desk A: " + this.stands("a") + ". Desk B: " + this.stands("b") + ". The board: " + rows.split("\n")[0] + ".";
    const count = this.world.waiting.length;
    at("bring").hidden = at("lose").hidden = count === 0 || field("at-once").checked;
    at("bring").textContent = "Bring what is on its way (" + count + ")";
    at("next").textContent = this.next ? "Both write “" + this.next + "”" : "The example ends here";
    field("next").disabled = field("ten").disabled = !this.next;
    at("happened").textContent = "All that happened: " + this.world.events.length + " events";
    at("events").replaceChildren(...this.world.events.map((event, number) => element("li", event + ": " + this.world.answers[number])));
    const bytes = new TextEncoder().encode(this.world.agreed.map(it => it + "\n").join(""));
    await this.show_match({ folder: "rehearsal", files: [this.sheet, { name: "lines.txt", bytes, kind: "lines", desk: null }] });
    if (this.world.trouble && !this.said.a && !this.said.b) put_if("told", this.world.trouble);
    if (focused) document.getElementById(focused)?.focus();
  }
}

/**
 * Begins a rehearsal with this sheet.
 * @param {Uint8Array} sheet
 * @param {Program} program
 * @param {(match: import("./files.mjs").Match) => Promise<void>} show_match
 */
export async function begin_rehearsal(sheet, program, show_match) {
  const shown = current = new Shown(sheet, program, show_match);
  at("rehearsal").hidden = false;
  at("rehearsal").ariaBusy = "false";
  at("next").onclick = () => shown.does(() => shown.write_both());
  at("ten").onclick = () => shown.does(async () => {
    for (let count = 0; count < MOST_AT_ONCE && shown.next; count++) {
      await shown.write_both();
      await shown.rehearsal.settle();
      await breath();
    }
  });
  at("bring").onclick = () => shown.does(() => shown.rehearsal.bring());
  at("lose").onclick = () => shown.does(async () => shown.rehearsal.lose());
  at("at-once").onchange = () => shown.does(async () => undefined);
  at("begin-anew").onclick = () => begin_rehearsal(sheet, program, show_match);
  at("save-schedule").onclick = () => save("schedule.txt", new Blob([shown.rehearsal.schedule()], { type: "text/plain" }));
  await shown.show();
  at("next").focus();
}

export function end_rehearsal() {
  current = null;
  at("rehearsal").hidden = true;
}
