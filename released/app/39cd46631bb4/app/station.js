// @ts-check
// A desk or a board as its page has it: the worker in which the program runs, what it says, and requests to its own web server.
import { KINDS, Ring } from "./ring.js";

/**
 * An answer of the station's web server.
 * @typedef {{ status: number, headers: Record<string, string>, body: string }} Answer
 */

const AGAIN = 5;
const HOST = "127.0.0.1:8001";
const HEAD_END = "\r\n\r\n";

/**
 * @param {Uint8Array} one
 * @param {Uint8Array} other
 */
function joined(one, other) {
  const all = new Uint8Array(one.length + other.length);
  all.set(one);
  all.set(other, one.length);
  return all;
}

/**
 * The head of an answer, and how many bytes it has; nothing where it isn't whole.
 * @param {Uint8Array} bytes
 */
function head_of(bytes) {
  const text = new TextDecoder("latin1").decode(bytes);
  const end = text.indexOf(HEAD_END);
  if (end < 0) return null;
  const [first, ...lines] = text.slice(0, end).split("\r\n");
  const headers = Object.fromEntries(lines.map(it => [it.slice(0, it.indexOf(":")).toLowerCase(), it.slice(it.indexOf(":") + 1).trim()]));
  return { status: Number(first.split(" ")[1]), headers, size: end + HEAD_END.length };
}

export class Station {
  constructor() {
    this.memory = Ring.memory();
    this.ring = new Ring(this.memory);
    this.worker = new Worker(new URL("desk.js", import.meta.url), { type: "module" });
    this.worker.onmessage = ({ data }) => this.heard(data);
    this.worker.onerror = event => this.ended(-1, event.message || "the program's worker couldn't be begun");
    /** @type {(number | Uint8Array)[][]} */
    this.late = [];
    this.lost = 0; // datagrams for which there was no room
    this.number = 0;
    /** @type {Map<number, (value: any) => void>} */
    this.waiting = new Map();
    /** @type {Map<number, (bytes: Uint8Array | null) => void>} */
    this.streams = new Map();
    this.rows = "";
    this.errors = "";
    this.listens = false;
    this.restored = 0;
    /** @type {number | null} */
    this.status = null;
    this.decoders = [new TextDecoder(), new TextDecoder()];
    /** @type {() => void} */
    this.on_change = () => undefined;
    /** @type {(from: number, to: number, bytes: Uint8Array) => void} */
    this.on_datagram = () => undefined;
  }

  /** @param {any} data */
  heard(data) {
    if (data.what === "datagram") return this.on_datagram(data.from, data.to, data.bytes);
    if (data.what === "bytes") return this.streams.get(data.id)?.(data.bytes);
    if (data.what === "answer") {
      this.waiting.get(data.id)?.(data.value);
      this.waiting.delete(data.id);
      return;
    }
    if (data.what === "gone") {
      const heard = this.streams.get(data.id);
      this.streams.delete(data.id);
      return heard?.(null);
    }
    if (data.what === "out") {
      const text = this.decoders[data.which - 1].decode(data.bytes, { stream: true });
      if (data.which === 1) this.rows += text;
      else this.errors += text;
    }
    if (data.what === "listens") this.listens = true;
    if (data.what === "restored") this.restored = data.count;
    if (data.what === "ended") return this.ended(data.status, data.why);
    this.on_change();
  }

  /**
   * @param {number} status
   * @param {string} [why]
   */
  ended(status, why = "") {
    this.status = status;
    if (why) this.errors += why + "\n";
    this.waiting.forEach(it => it(null));
    this.waiting.clear();
    this.on_change();
  }

  /**
   * Tells the worker something. Where there is no room, a datagram is lost, and all else waits.
   * @param {number} kind
   * @param {number} id
   * @param {Uint8Array} [bytes]
   */
  put(kind, id, bytes = new Uint8Array(0)) {
    if (this.late.length === 0 && this.ring.put(kind, id, bytes)) return;
    if (kind === KINDS.datagram) {
      this.lost++;
      return;
    }
    this.late.push([kind, id, bytes]);
    if (this.late.length === 1) setTimeout(() => this.put_late(), AGAIN);
  }

  put_late() {
    while (this.late.length) {
      const [kind, id, bytes] = /** @type {[number, number, Uint8Array]} */ (this.late[0]);
      if (!this.ring.put(kind, id, bytes)) break;
      this.late.shift();
    }
    if (this.late.length) setTimeout(() => this.put_late(), AGAIN);
  }

  /** @param {Omit<import("./desk.js").Beginning, "memory">} it */
  begin(it) {
    this.worker.postMessage({ ...it, memory: this.memory });
  }

  /** @param {string} line */
  type(line) {
    this.put(KINDS.type, 0, new TextEncoder().encode(line + "\n"));
  }

  /**
   * A datagram came, from this port.
   * @param {number} port
   * @param {Uint8Array} bytes
   */
  take(port, bytes) {
    this.put(KINDS.datagram, port, bytes);
  }

  stop() {
    this.put(KINDS.stop, 0);
  }

  /**
   * @param {number} kind
   * @returns {Promise<any>}
   */
  asked(kind) {
    if (this.status !== null) return Promise.resolve(null);
    const id = ++this.number;
    return new Promise(resolve => {
      this.waiting.set(id, resolve);
      this.put(kind, id);
    });
  }

  /**
   * The votes file, whole; nothing where there is none.
   * @returns {Promise<Uint8Array | null>}
   */
  votes() {
    return this.asked(KINDS.file);
  }

  /**
   * The calls that wrote, synced and sent, where they are traced.
   * @returns {Promise<string[] | null>}
   */
  calls() {
    return this.asked(KINDS.calls);
  }

  /**
   * A stream of bytes to the station's web server. What comes is handed on, and nothing once it is over. It answers how to hang up.
   * @param {Uint8Array} bytes
   * @param {(bytes: Uint8Array | null) => void} heard
   */
  stream(bytes, heard) {
    const id = ++this.number;
    this.streams.set(id, heard);
    this.put(KINDS.connect, id, bytes);
    return () => {
      if (this.streams.delete(id)) this.put(KINDS.hang_up, id);
    };
  }

  /**
   * A request, as its bytes.
   * @param {string} method
   * @param {string} path
   * @param {Record<string, string>} headers
   * @param {string} body
   */
  request_of(method, path, headers, body) {
    const bytes = new TextEncoder().encode(body);
    /** @type {Record<string, string>} */
    const all = { Host: HOST, ...headers, ...(method === "POST" ? { "Content-Length": String(bytes.length) } : {}) };
    const lines = Object.entries(all).map(([name, value]) => `${name}: ${value}\r\n`);
    return joined(new TextEncoder().encode(`${method} /${path.replace(/^\//, "")} HTTP/1.1\r\n${lines.join("")}\r\n`), bytes);
  }

  /**
   * Asks the station's web server, and answers all that it says.
   * @param {string} method
   * @param {string} path
   * @param {Record<string, string>} [headers]
   * @param {string} [body]
   * @returns {Promise<Answer>}
   */
  ask(method, path, headers = {}, body = "") {
    return new Promise((resolve, reject) => {
      let got = new Uint8Array(0);
      const hang_up = this.stream(this.request_of(method, path, headers, body), more => {
        got = more ? joined(got, more) : got;
        const head = head_of(got);
        if (!head) return more ? undefined : reject(new TypeError("there is no answer"));
        const length = head.headers["content-length"];
        const end = length === undefined ? (more ? Infinity : got.length) : head.size + Number(length);
        if (more && got.length < end) return undefined;
        hang_up();
        return resolve({ status: head.status, headers: head.headers, body: new TextDecoder().decode(got.subarray(head.size, end)) });
      });
    });
  }

  /**
   * Follows what the station's web server says on and on. It answers how to hang up.
   * @param {string} path
   * @param {(status: number, text: string, is_over: boolean) => void} heard
   */
  follow(path, heard) {
    let [got, status] = [new Uint8Array(0), 0];
    const decoder = new TextDecoder();
    return this.stream(this.request_of("GET", path, { Accept: "text/event-stream" }, ""), more => {
      got = more ? joined(got, more) : got;
      const head = status ? null : head_of(got);
      if (head) [status, got] = [head.status, got.slice(head.size)];
      if (status || !more) heard(status, status ? decoder.decode(got, { stream: true }) : "", !more);
      if (status) got = new Uint8Array(0);
    });
  }
}
