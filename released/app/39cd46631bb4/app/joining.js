// @ts-check
// Codes as they are shown, scanned and pasted: how this page is joined to another.
import { at, element, field, put_if } from "../dom.js";
import { offer_camera } from "./camera.js";
import { code_in, letters_of_code, match_of, new_offer } from "./code.js";
import { Unfit } from "./description.js";
import { called, is_desk, prints_of } from "./words.js";
import { picture_of, square } from "./square.js";

/** @typedef {import("./code.js").Code} Code */
/** @typedef {import("./playing.js").Playing} Playing */

/** What is put before a code's letters: the app's own address. */
const before = () => location.origin + location.pathname + "#";

export class Joining {
  /** @param {Playing} playing */
  constructor(playing) {
    this.playing = playing;
    /**
     * By which number each station's offer is known.
     * @type {Map<string, string>}
     */
    this.offers = new Map();
    /**
     * To whom this match was ever joined, and to whom since this page was opened.
     * @type {Set<string>}
     */
    this.met = new Set(playing.match.met);
    /** @type {Set<string>} */
    this.joined = new Set();
    /** @type {string} */
    this.shown_to = "";
    at("copy").onclick = () => navigator.clipboard.writeText(field("code-text").value).then(() => { at("copy").textContent = "Copied"; }, () => field("code-text").select());
    at("share-code").hidden = !navigator.share;
    at("share-code").onclick = () => navigator.share({ text: field("code-text").value }).catch(() => undefined);
    at("take-code").onclick = () => this.take_text(field("paste").value);
    offer_camera(text => this.take_text(text));
  }

  get own() {
    return this.playing.match.station;
  }

  /**
   * Shows a code by which a station joins: with the sheet and the key where it wasn't joined yet.
   * @param {string} to
   */
  async invite(to, is_whole = !this.met.has(to)) {
    const { sheet, key } = this.playing.match;
    const [offer, way] = [new_offer(), await this.playing.network.link(to).offer()];
    this.offers.set(to, offer);
    const kind = is_whole && is_desk(this.own) ? "invitation" : "offer";
    const code = { kind, from: this.own, to, match: await match_of(sheet, key), offer, way, sheet, key };
    const letters = await letters_of_code(/** @type {Code} */ (code));
    this.show(to, letters, `1. ${capital(called(to))} points a camera at this square, or pastes this code.`, `2. Then take the code that ${called(to)}'s tablet shows.`);
    at("whole").hidden = kind === "invitation" || !is_desk(this.own);
    at("whole").onclick = () => this.invite(to, true);
  }

  /**
   * @param {string} to
   * @param {string} letters
   * @param {string} step
   * @param {string} next
   */
  show(to, letters, step, next) {
    this.shown_to = to;
    at("copy").textContent = "Copy the code";
    field("code-text").value = before() + letters;
    at("square").replaceChildren(picture_of(square(before(), letters)));
    put_if("code-step", step);
    put_if("take-step", next);
    at("shown-code").hidden = false;
    at("taking").hidden = next === "";
    at("shown-code").scrollIntoView({ block: "nearest" });
  }

  /**
   * Takes what was pasted or scanned, and says what was wrong with it.
   * @param {string} text
   */
  async take_text(text) {
    put_if("told", "");
    try {
      await this.take(await code_in(text));
      field("paste").value = "";
    } catch (why) {
      put_if("told", why instanceof Unfit ? capital(why.message) + "." : "The code can't be used: " + /** @type {Error} */ (why).message);
    }
  }

  /**
   * Whether a code is for this page.
   * @param {Code} code
   */
  async is_for_this({ match, to }) {
    const { sheet, key, station } = this.playing.match;
    return to === station && match === (await match_of(sheet, key));
  }

  /**
   * Takes a code that is for this page.
   * @param {Code} code
   */
  async take(code) {
    const { sheet, key } = this.playing.match;
    if (code.match !== (await match_of(sheet, key))) throw new Unfit("this code is of another match");
    if (code.from === this.own) throw new Unfit("this is this tablet's own code: take the one that the other tablet shows");
    if (code.to !== this.own) throw new Unfit(`this code is for ${called(code.to)}, and this is ${called(this.own)}`);
    const link = this.playing.network.link(code.from);
    if (code.kind === "answer") {
      if (this.offers.get(code.from) !== code.offer) throw new Unfit("this answers a code that is no longer shown here: let the other tablet take the one that stands here now");
      await link.accept(code.way);
      this.offers.delete(code.from);
      put_if("code-step", "The code is taken. Both tablets join now.");
      return;
    }
    const way = await link.answer(code.way);
    const answer = await letters_of_code({ kind: "answer", from: this.own, to: code.from, match: code.match, offer: code.offer, way });
    this.show(code.from, answer, `${capital(called(code.from))} takes this code: by the camera, or pasted.`, "");
    at("whole").hidden = true;
  }

  /** Shows who is joined, and what is read to each other. It answers whether somebody was joined just now. */
  list() {
    const { network, station } = this.playing;
    const all = this.playing.peers();
    const news = all.filter(it => network.has(it) && !this.joined.has(it));
    news.forEach(it => this.joined.add(it) && this.met.add(it));
    at("joined-to").replaceChildren(...all.filter(it => is_desk(it) || it === "1" || this.met.has("1")).map(it => {
      const made = element("button", network.has(it) ? `${capital(called(it))} is joined: new code` : `Code for ${it === "1" && !this.met.has("1") ? "a scoreboard" : called(it)}`);
      made.id = "code-for-" + it;
      made.onclick = () => this.invite(it);
      return made;
    }));
    at("fingerprints").hidden = prints_of(station.errors) === "" || this.joined.size === 0;
    at("prints").textContent = prints_of(station.errors);
    if (this.shown_to && network.has(this.shown_to)) {
      this.shown_to = "";
      at("shown-code").hidden = at("taking").hidden = true;
    }
    return news.length > 0;
  }
}

/** @param {string} text */
export const capital = text => text.slice(0, 1).toUpperCase() + text.slice(1);
