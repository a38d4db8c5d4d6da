// @ts-check
// The network of a match: its stations are pages, each with a port of its own, joined by links. A datagram has in front the ports that it comes from and goes
// to. What goes to another station is handed on unopened by the page that both are joined to: so a board that is joined to one desk hears both.
import { Link } from "./link.js";
import { PORTS } from "./ports.js";

const HEAD = 4;

export class Network {
  /**
   * @param {string} own the station of this page
   * @param {import("./station.js").Station} station
   * @param {() => void} on_change
   */
  constructor(own, station, on_change) {
    this.own = own;
    this.station = station;
    this.on_change = on_change;
    /** @type {Map<string, Link>} */
    this.links = new Map();
    station.on_datagram = (from, to, bytes) => {
      const all = new Uint8Array(HEAD + bytes.length);
      all.set([from >> 8, from & 255, to >> 8, to & 255]);
      all.set(bytes, HEAD);
      this.send(to, all, "");
    };
  }

  /**
   * The link to a station, which is made where there is none.
   * @param {string} to
   */
  link(to) {
    const found = this.links.get(to) ?? new Link(bytes => this.came(to, bytes), this.on_change);
    this.links.set(to, found);
    return found;
  }

  /**
   * Whether a station is joined to this page.
   * @param {string} to
   */
  has(to) {
    return this.links.get(to)?.stands ?? false;
  }

  /** @param {number} port */
  station_of(port) {
    return Object.keys(PORTS).find(it => PORTS[it] === port) ?? "";
  }

  /**
   * Sends a datagram to its station, or, where that isn't joined to this page, to the desks that are; but never back.
   * @param {number} port
   * @param {Uint8Array} bytes
   * @param {string} before from whom it came
   */
  send(port, bytes, before) {
    const to = this.station_of(port);
    if (this.has(to)) return this.links.get(to)?.send(bytes);
    for (const [name, link] of this.links) if (name !== before && (name === "a" || name === "b")) link.send(bytes);
  }

  /**
   * @param {string} before
   * @param {Uint8Array} bytes
   */
  came(before, bytes) {
    if (bytes.length < HEAD) return;
    const [from, to] = [bytes[0] * 256 + bytes[1], bytes[2] * 256 + bytes[3]];
    if (to === PORTS[this.own]) this.station.take(from, bytes.slice(HEAD));
    else if (this.station_of(from) === before) this.send(to, bytes, before);
  }

  close() {
    this.links.forEach(it => it.close());
  }
}
