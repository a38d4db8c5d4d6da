// @ts-check
// Two desks and a board, rehearsed in the world of the program's `replay`: a list of events, which is played from the first one
// on each time that one is added. What comes of each event is what `replay` prints, and the board's rows are what `check` prints of the
// entries that both scorers wrote. Here stands only which messages are on their way, and to whom.

/** @typedef {"a" | "b"} Desk */

/**
 * A message that was handed out and not yet brought.
 * @typedef {object} Waiting
 * @property {number} message
 * @property {string[]} to
 */

/**
 * How the world stands.
 * @typedef {object} World
 * @property {string[]} events
 * @property {string[]} answers one for each event
 * @property {Waiting[]} waiting
 * @property {string[]} agreed the entries that both wrote
 * @property {Record<string, string>} books what `replay` prints last of each station
 * @property {Record<Desk, string>} penned each desk's last line that it took
 * @property {Record<Desk, boolean>} runs
 * @property {string} trouble
 */

const STATIONS = ["a", "b", "1"];
const TAKEN = new Set(["pending", "agreed", "differ"]);
// How often desks are asked for what they lack before somebody must type.
const MOST_TICKS = 4;

export class Rehearsal {
  /** @param {(schedule: string) => Promise<{ status: number | null, output: string, errors: string }>} play runs `replay` with one board */
  constructor(play) {
    this.play = play;
    /** @type {World} */
    this.world = {
      events: [], answers: [], waiting: [], agreed: [], books: {}, penned: { a: "", b: "" }, runs: { a: true, b: true }, trouble: "",
    };
    this.messages = 0;
  }

  /**
   * Adds events, and plays all. It answers what came of the last one; nothing where one was refused, and they are taken back.
   * @param {string[]} added
   */
  async add(...added) {
    const [events, before] = [[...this.world.events, ...added], this.world.events.length];
    const { status, output, errors } = await this.play(events.map(it => it + "\n").join(""));
    const lines = output.trimEnd().split("\n");
    this.world.trouble = status === 0 ? "" : (errors.trim() || output.trim());
    if (status !== 0) return null;
    this.world.events = events;
    this.world.answers = lines.slice(0, events.length).map(it => it.slice(it.indexOf(" ") + 1));
    added.forEach((event, number) => this.note_messages(event, this.world.answers[before + number]));
    this.note_books(lines.slice(events.length));
    return this.world.answers[events.length - 1];
  }

  /**
   * The messages that an event handed out go to every other station.
   * @param {string} event
   * @param {string} answer
   */
  note_messages(event, answer) {
    const [what, one, other] = event.split(" ");
    const from = what === "give" ? other : one;
    const sent = what === "pen" ? Number(TAKEN.has(answer)) : what === "tick" ? Number(answer.replace("sent ", "")) || 0 : Number(answer === "answered");
    for (let count = 0; count < sent; count++) this.world.waiting.push({ message: this.messages++, to: STATIONS.filter(it => it !== from) });
    if (what === "pen" && TAKEN.has(answer)) this.world.penned[/** @type {Desk} */ (one)] = event.slice("pen a ".length);
  }

  /**
   * How many entries are agreed, and each station's book. What is brought at once agrees one entry at most: that which desk A wrote last.
   * @param {string[]} lines
   */
  note_books(lines) {
    const count = Number(lines[0].replace("agreed ", ""));
    if (count > this.world.agreed.length) this.world.agreed.push(this.world.penned.a);
    this.world.books = Object.fromEntries(lines.slice(1).map(it => [it.slice(0, 1), it.slice(2)]));
  }

  /**
   * How many entries a station has.
   * @param {string} station
   */
  length_of(station) {
    return Number((this.world.books[station] ?? "0").split(" ")[0]);
  }

  /** Brings what is on its way, to all that run. What a message is answered by is on its way then. */
  async bring() {
    const now = this.world.waiting;
    this.world.waiting = [];
    const given = now.flatMap(({ message, to }) => to.filter(it => it === "1" || this.world.runs[/** @type {Desk} */ (it)]).map(it => "give " + message + " " + it));
    if (given.length) await this.add(...given);
  }

  /** Loses what is on its way. */
  lose() {
    this.world.waiting = [];
  }

  /** Brings all, and has each station ask for what it lacks, until the books are one and nothing is on its way. */
  async settle() {
    for (let count = 0; count < MOST_TICKS; count++) {
      while (this.world.waiting.length) await this.bring();
      const running = STATIONS.filter(it => it === "1" || this.world.runs[/** @type {Desk} */ (it)]);
      if (running.every(it => this.length_of(it) === this.world.agreed.length)) return;
      await this.add(...running.map(it => "tick " + it));
    }
    while (this.world.waiting.length) await this.bring();
  }

  /**
   * A scorer writes a line.
   * @param {Desk} desk
   * @param {string} line
   */
  pen(desk, line) {
    return this.add("pen " + desk + " " + line);
  }

  /**
   * A desk's laptop loses its power.
   * @param {Desk} desk
   */
  async stop(desk) {
    if ((await this.add("power " + desk + " lost")) !== null) this.world.runs[desk] = false;
  }

  /**
   * A desk is begun again.
   * @param {Desk} desk
   */
  async start(desk) {
    const answer = await this.add("open " + desk);
    this.world.runs[desk] = answer !== null && answer.startsWith("opened");
    return answer;
  }

  /** The events, as a schedule for `replay`. */
  schedule() {
    return this.world.events.map(it => it + "\n").join("");
  }
}

