// @ts-check
// How a page can be reached, as WebRTC describes it (SDP), cut to what differs: who it is (the fingerprint of its certificate), two words that are asked
// for, and its addresses. All else is alike for each channel of data, and is put back.

/**
 * @typedef {object} Reachable
 * @property {string} fragment the first word
 * @property {string} password the second
 * @property {Uint8Array} fingerprint 32 bytes: SHA-256 of the certificate
 * @property {{ host: string, port: number }[]} candidates
 */

const PRINT = 32;
const MOST = 8;
const HIDDEN = /^([0-9a-f]{8})-([0-9a-f]{4})-([0-9a-f]{4})-([0-9a-f]{4})-([0-9a-f]{12})\.local$/i;
// What an address is, by its first byte.
const FOUR = 4;
const SIX = 6;
const NAME = 1;
const OTHER = 0;

/** @param {string} text */
export class Unfit extends Error {}

/** @param {string} hex */
const bytes_of_hex = hex => Uint8Array.from(hex.match(/../g) ?? [], it => parseInt(it, 16));
/** @param {Uint8Array} bytes */
const hex_of = bytes => [...bytes].map(it => it.toString(16).padStart(2, "0")).join("");

/**
 * What a description says.
 * @param {string} text
 * @returns {Reachable}
 */
export function reachable(text) {
  const line = (/** @type {string} */ name) => new RegExp(`^a=${name}:(.*?)\\r?$`, "m").exec(text)?.[1] ?? "";
  const print = /^sha-256 ([0-9A-F:]+)$/i.exec(line("fingerprint"))?.[1] ?? "";
  const fingerprint = bytes_of_hex(print.replace(/:/g, ""));
  if (fingerprint.length !== PRINT || !line("ice-ufrag") || !line("ice-pwd")) throw new Unfit("this browser's way to connect isn't understood");
  const candidates = [...text.matchAll(/^a=candidate:\S+ 1 udp \d+ (\S+) (\d+) typ host/gim)].map(([, host, port]) => ({ host, port: Number(port) }));
  return { fragment: line("ice-ufrag"), password: line("ice-pwd"), fingerprint, candidates: candidates.slice(0, MOST) };
}

/**
 * The description of an offer or an answer.
 * @param {Reachable} it
 * @param {"offer" | "answer"} kind
 */
export function description({ fragment, password, fingerprint, candidates }, kind) {
  const print = hex_of(fingerprint).toUpperCase().replace(/(..)(?=.)/g, "$1:");
  const priority = (/** @type {number} */ place) => 126 * 2 ** 24 + (65535 - place) * 2 ** 8 + 255;
  const rows = [
    "v=0", "o=- 1 2 IN IP4 127.0.0.1", "s=-", "t=0 0", "a=group:BUNDLE 0", "m=application 9 UDP/DTLS/SCTP webrtc-datachannel", "c=IN IP4 0.0.0.0", `a=ice-ufrag:${fragment}`,
    `a=ice-pwd:${password}`, `a=fingerprint:sha-256 ${print}`, `a=setup:${kind === "offer" ? "actpass" : "active"}`, "a=mid:0", "a=sendrecv", "a=sctp-port:5000", "a=max-message-size:262144",
    ...candidates.map(({ host, port }, place) => `a=candidate:${place + 1} 1 udp ${priority(place)} ${host} ${port} typ host`),
  ];
  return { type: kind, sdp: rows.map(it => it + "\r\n").join("") };
}

/** @param {string} host */
function packed_host(host) {
  const four = /^(\d+)\.(\d+)\.(\d+)\.(\d+)$/.exec(host);
  if (four) return [FOUR, ...four.slice(1).map(Number)];
  const hidden = HIDDEN.exec(host);
  if (hidden) return [NAME, ...bytes_of_hex(hidden.slice(1).join(""))];
  const text = new TextEncoder().encode(host);
  return [host.includes(":") ? SIX : OTHER, text.length, ...text];
}

/** Bytes that are read one after the other. */
export class Reader {
  /** @param {Uint8Array} bytes */
  constructor(bytes) {
    this.bytes = bytes;
    this.at = 0;
  }

  /** @param {number} count */
  take(count) {
    if (this.at + count > this.bytes.length) throw new Unfit("the code is cut off");
    this.at += count;
    return this.bytes.subarray(this.at - count, this.at);
  }

  byte() {
    return this.take(1)[0];
  }

  two() {
    return this.byte() * 256 + this.byte();
  }

  /** @param {number} count */
  text(count) {
    return new TextDecoder().decode(this.take(count));
  }
}

/** @param {Reader} from */
function host_of(from) {
  const kind = from.byte();
  if (kind === FOUR) return [...from.take(4)].join(".");
  if (kind === NAME) return hex_of(from.take(16)).replace(/^(.{8})(.{4})(.{4})(.{4})(.{12})$/, "$1-$2-$3-$4-$5.local");
  const text = from.text(from.byte());
  if ((kind !== SIX && kind !== OTHER) || !/^[0-9A-Za-z.:-]+$/.test(text)) throw new Unfit("the code has an address that isn't understood");
  return text;
}

/** @param {Reachable} it */
export function packed_reachable({ fragment, password, fingerprint, candidates }) {
  const text = (/** @type {string} */ it) => [it.length, ...new TextEncoder().encode(it)];
  const ways = candidates.flatMap(({ host, port }) => [...packed_host(host), port >> 8, port & 255]);
  return new Uint8Array([...text(fragment), ...text(password), ...fingerprint, candidates.length, ...ways]);
}

/**
 * @param {Reader} from
 * @returns {Reachable}
 */
export function reachable_of(from) {
  const word = () => {
    const text = from.text(from.byte());
    if (!/^[0-9A-Za-z+/]+$/.test(text)) throw new Unfit("the code has a word that isn't understood");
    return text;
  };
  const [fragment, password, fingerprint, count] = [word(), word(), from.take(PRINT).slice(), from.byte()];
  if (count > MOST) throw new Unfit("the code has too many addresses");
  const candidates = Array.from({ length: count }, () => ({ host: host_of(from), port: from.two() }));
  return { fragment, password, fingerprint, candidates };
}
