// @ts-check
// A match that is open: its desk or board runs in this page, which shows the station's own page and joins it to the others.
import { put_match } from "./database.js";
import { show_page } from "./frame.js";
import { Network } from "./network.js";
import { hold_match } from "./release.js";
import { Station } from "./station.js";
import { is_desk, words_of } from "./words.js";

/** @typedef {import("./database.js").Match} Match */

const SECRET = /#([0-9a-f]{32})\b/;
const ENDED_BY_ITSELF = -2;

export class Playing {
  /**
   * @param {WebAssembly.Module} module
   * @param {Match} match
   * @param {HTMLIFrameElement} frame
   * @param {() => void} on_change
   */
  constructor(module, match, frame, on_change) {
    this.module = module;
    this.match = match;
    this.frame = frame;
    this.on_change = on_change;
    this.station = new Station();
    this.network = new Network(match.station, this.station, on_change);
    this.is_shown = false;
    this.station.on_change = () => this.changed();
  }

  /** @param {{ is_traced: boolean }} how */
  begin({ is_traced }) {
    const { match } = this;
    const encoder = new TextEncoder();
    hold_match(match.name);
    addEventListener("pagehide", () => this.station.stop());
    const votes = is_desk(match.station) ? `/${match.station}.votes` : "";
    const files = { "/sheet.toml": encoder.encode(match.sheet), "/key.txt": encoder.encode(match.key) };
    this.station.begin({ module: this.module, words: words_of(match.station), files, store: votes ? match.name : "", votes, is_begun: match.is_begun, is_traced });
    this.keep_awake();
    document.addEventListener("visibilitychange", () => this.keep_awake());
  }

  /** Has the screen stay on while the page is seen, where the browser lets it. */
  keep_awake() {
    if (document.visibilityState === "visible") /** @type {any} */ (navigator).wakeLock?.request("screen").catch(() => undefined);
  }

  changed() {
    const secret = SECRET.exec(this.station.errors)?.[1] ?? "";
    const is_ready = this.station.listens && (secret !== "" || !is_desk(this.match.station));
    if (is_ready && !this.is_shown) {
      this.is_shown = true;
      show_page(this.station, this.frame, secret && "#" + secret).catch(() => undefined);
      this.match.is_begun = true;
      this.keep();
    }
    this.on_change();
  }

  /** Has this tablet remember how far the match is. */
  keep() {
    put_match(this.match.name, this.match).catch(() => undefined);
  }

  /** Why the station has ended, in words; nothing while it goes on. */
  ended() {
    if (this.station.status === null || this.station.status === ENDED_BY_ITSELF) return "";
    const told = this.station.errors.split("\n").map(it => it.replace(/\x1b\[[0-9;]*m/g, "").trim()).filter(it => /^[\x20-\x7e]+$/.test(it) && !it.includes("http"));
    return told.slice(-3).join("\n") || "The station has ended.";
  }

  /** To whom this page is joined, and to whom it should be. */
  peers() {
    const desks = ["a", "b"].filter(it => it !== this.match.station);
    return is_desk(this.match.station) ? [...desks, "1", "2"] : desks;
  }
}
