// @ts-check
// How datagrams go from this page to another: a channel of WebRTC that loses and reorders as UDP does. Codes carried by hand make it once. While it
// stands, both pages make spare connections over it: where it is away for longer than a browser waits, one of these brings it back without a code.
import { description, reachable } from "./description.js";

/**
 * A connection: its two channels are agreed beforehand, `votes` for datagrams, and `talk` for what spares are made by.
 * @typedef {{ peer: RTCPeerConnection, votes: RTCDataChannel, talk: RTCDataChannel }} Connection
 *
 * A spare of this page's: offered, and answered, but the answer isn't applied yet.
 * @typedef {{ connection: Connection, answer: string }} Spare
 */

const GATHERING = 3000;
const TURN = 500;
const SPARES = 5;
const MOST_HELD = 12;
// The longest that a link is given to come back by itself, and how long each spare then gets, in turn; who answered the code waits a little longer.
const AWAY = 4000;
const TRIES = [10_000, 15_000, 30_000, 60_000, 120_000];
const SECOND = 5000;
const FULL = 65_536;
const OVERLAP = 5000;

/** @returns {Connection} */
function new_connection() {
  const peer = new RTCPeerConnection();
  const votes = peer.createDataChannel("votes", { negotiated: true, id: 0, ordered: false, maxRetransmits: 0 });
  const talk = peer.createDataChannel("talk", { negotiated: true, id: 1 });
  votes.binaryType = "arraybuffer";
  return { peer, votes, talk };
}

/**
 * This page's own description, with all its addresses.
 * @param {RTCPeerConnection} peer
 */
async function described(peer) {
  const gathered = new Promise(resolve => {
    peer.onicecandidate = ({ candidate }) => { if (!candidate) resolve(null); };
    setTimeout(resolve, GATHERING, null);
  });
  await peer.setLocalDescription();
  await gathered;
  return /** @type {RTCSessionDescription} */ (peer.localDescription).sdp;
}

/**
 * A description without addresses.
 * @param {string} text
 */
const without_addresses = text => text.replace(/^a=(?:candidate:.*|end-of-candidates)\r?\n/gm, "");

export class Link {
  /**
   * @param {(bytes: Uint8Array) => void} take what a datagram brings
   * @param {() => void} on_change
   */
  constructor(take, on_change) {
    this.take = take;
    this.on_change = on_change;
    /** @type {Connection | null} */
    this.current = null;
    /** @type {Connection | null} */
    this.offered = null;
    /** @type {Spare[]} */
    this.spares = [];
    /** @type {Map<number, Connection>} */
    this.asked = new Map();
    /** @type {Connection[]} */
    this.held = [];
    this.is_first = false;
    this.number = 0;
    this.tried = 0;
    this.used = 0;
    this.away_since = 0;
    this.next_try = 0;
    this.timer = setInterval(() => this.turn().catch(() => undefined), TURN);
    addEventListener("online", () => { this.next_try = 0; });
  }

  /** Whether datagrams go over it now. */
  get stands() {
    return this.current !== null && this.current.votes.readyState === "open" && this.current.peer.connectionState === "connected";
  }

  /** Whether it is away, and spares are left by which it may come back. */
  get is_tried_again() {
    return this.current !== null && !this.stands && (this.spares.length > 0 || this.held.length > 0);
  }

  /** Begins an offer, and answers what a code has of it. */
  async offer() {
    this.offered?.peer.close();
    this.offered = this.watched(new_connection());
    return reachable(await described(this.offered.peer));
  }

  /**
   * Takes the answer to the last offer.
   * @param {import("./description.js").Reachable} way
   */
  async accept(way) {
    if (!this.offered) throw new Error("no code was shown here that this one answers");
    await this.offered.peer.setRemoteDescription(/** @type {any} */ (description(way, "answer")));
    this.is_first = true;
  }

  /**
   * Answers an offer.
   * @param {import("./description.js").Reachable} way
   */
  async answer(way) {
    const made = this.watched(new_connection());
    await made.peer.setRemoteDescription(/** @type {any} */ (description(way, "offer")));
    this.is_first = false;
    return reachable(await described(made.peer));
  }

  /** @param {Connection} made */
  watched(made) {
    made.votes.onopen = () => this.use(made);
    made.votes.onmessage = ({ data }) => this.take(new Uint8Array(data));
    made.talk.onmessage = ({ data }) => this.talked(made, data).catch(() => undefined);
    made.peer.onconnectionstatechange = () => this.on_change();
    return made;
  }

  /**
   * A connection stands: it is the one by which all is sent. Who made the first offer closes the one before, a little later.
   * @param {Connection} made
   */
  use(made) {
    const old = this.current;
    this.current = made;
    if (this.offered === made) this.offered = null;
    this.held = this.held.filter(it => it !== made);
    if (old && old !== made && (this.is_first || old.peer.connectionState !== "connected")) setTimeout(() => old.peer.close(), OVERLAP);
    [this.away_since, this.next_try, this.tried] = [0, 0, 0];
    this.on_change();
  }

  /**
   * Sends a datagram, which may be lost.
   * @param {Uint8Array} bytes
   */
  send(bytes) {
    const votes = this.current?.votes;
    if (votes && votes.readyState === "open" && votes.bufferedAmount < FULL) votes.send(/** @type {any} */ (bytes));
  }

  /**
   * @param {Connection} over
   * @param {string} text the number of a spare, with its offer or its answer
   */
  async talked(over, text) {
    const { number, offer, answer } = JSON.parse(text);
    if (offer) {
      const made = this.watched(new_connection());
      this.held.push(made);
      if (this.held.length > MOST_HELD) this.held.shift()?.peer.close();
      await made.peer.setRemoteDescription({ type: "offer", sdp: without_addresses(offer) });
      over.talk.send(JSON.stringify({ number, answer: await described(made.peer) }));
    }
    const connection = this.asked.get(number);
    this.asked.delete(number);
    if (answer && connection) this.spares.push({ connection, answer });
  }

  /** Makes spares while the link stands; tries one after another while it doesn't. */
  async turn() {
    if (this.stands) {
      this.away_since = 0;
      if (this.current?.talk.readyState === "open" && this.spares.length + this.asked.size < SPARES) await this.ask_spare(this.current.talk);
      return;
    }
    const now = performance.now();
    if (!this.current || this.spares.length === 0) return;
    if (!this.away_since) [this.away_since, this.next_try] = [now, now + AWAY + (this.is_first ? 0 : SECOND)];
    if (now < this.next_try) return;
    const { connection, answer } = /** @type {Spare} */ (this.spares.shift());
    this.next_try = now + TRIES[Math.min(this.tried++, TRIES.length - 1)];
    this.used++;
    await connection.peer.setRemoteDescription({ type: "answer", sdp: answer });
  }

  /** @param {RTCDataChannel} talk */
  async ask_spare(talk) {
    const number = ++this.number;
    const made = this.watched(new_connection());
    this.asked.set(number, made);
    const offer = await described(made.peer);
    if (talk.readyState === "open") talk.send(JSON.stringify({ number, offer }));
    else this.asked.delete(number);
  }

  close() {
    clearInterval(this.timer);
    const all = [this.current, this.offered, ...this.held, ...this.spares.map(it => it.connection), ...this.asked.values()];
    all.forEach(it => it?.peer.close());
  }
}
