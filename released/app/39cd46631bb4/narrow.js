// @ts-check
// Makes of a module whose memory has addresses of 64 bits one with addresses of 32 bits, for engines that know no other. Values stay as
// they are: an address is cut to its lower half where memory is read or written with it, and memory never has more than 2^32 bytes. It
// is trusted, as the engine is.

/** A byte of each instruction that is named here. */
const OP = {
  block: 0x02, loop: 0x03, if: 0x04, end: 0x0b, br: 0x0c, br_if: 0x0d, br_table: 0x0e, call: 0x10, typed_select: 0x1c, get: 0x20, set: 0x21,
  first_load: 0x28, first_store: 0x36, last_store: 0x3e, size: 0x3f, grow: 0x40, i32: 0x41, i64: 0x42, f32: 0x43, f64: 0x44,
  cut: 0xa7, widen_signed: 0xac, widen: 0xad, last_plain: 0xc4, more: 0xfc,
};
/** Those behind `more`. */
const MORE = { last_plain: 7, copy: 10, fill: 11 };
/** The instructions without a constant below 0x45: unreachable, nop, else, end, return, drop, select. */
const PLAIN = new Set([0x00, 0x01, 0x05, 0x0b, 0x0f, 0x1a, 0x1b]);
const TYPE = { i32: 0x7f, i64: 0x7e, f32: 0x7d, f64: 0x7c };
/** What is stored, from `first_store` on. */
const STORED = [TYPE.i32, TYPE.i64, TYPE.f32, TYPE.f64, TYPE.i32, TYPE.i32, TYPE.i64, TYPE.i64, TYPE.i64];
const SECTION = { custom: 0, type: 1, import: 2, function: 3, table: 4, memory: 5, code: 10, data: 11 };
const WIDE = 4;
/** More than that tells of another memory. */
const MOST_ALIGNMENT = 64;
const MOST_PAGES = 65_536;

/** @param {string} why */
function unknown(why) {
  return new Error(`the module can't be made narrow: ${why}`);
}

/** Bytes that are read from their start. */
class Reader {
  /** @param {Uint8Array} bytes */
  constructor(bytes) {
    this.bytes = bytes;
    this.at = 0;
  }

  get is_at_end() {
    return this.at >= this.bytes.length;
  }

  byte() {
    if (this.is_at_end) throw unknown("it is cut");
    return this.bytes[this.at++];
  }

  /** A number without a sign. */
  number() {
    let [value, scale, byte] = [0, 1, 0];
    do {
      byte = this.byte();
      value += (byte & 0x7f) * scale;
      scale *= 128;
    } while (byte & 0x80);
    return value;
  }

  /** Passes a number of any kind. */
  pass() {
    while (this.byte() & 0x80);
  }

  /** @param {number} count */
  part(count) {
    if (this.at + count > this.bytes.length) throw unknown("it is cut");
    this.at += count;
    return this.bytes.subarray(this.at - count, this.at);
  }
}

/** Bytes that are written. */
class Writer {
  constructor() {
    this.room = new Uint8Array(256);
    this.length = 0;
  }

  get bytes() {
    return this.room.subarray(0, this.length);
  }

  /** @param {number} count of bytes for which there is room then */
  widen(count) {
    if (this.length + count <= this.room.length) return;
    const wider = new Uint8Array(2 * (this.length + count));
    wider.set(this.bytes);
    this.room = wider;
  }

  /** @param {number[]} bytes a few */
  put(...bytes) {
    this.widen(bytes.length);
    for (const byte of bytes) this.room[this.length++] = byte;
  }

  /** @param {Uint8Array} bytes */
  part(bytes) {
    this.widen(bytes.length);
    this.room.set(bytes, this.length);
    this.length += bytes.length;
  }

  /** @param {number} value without a sign */
  number(value) {
    let left = value;
    while (left > 0x7f) {
      this.put((left % 128) | 0x80);
      left = Math.floor(left / 128);
    }
    this.put(left);
  }

  /** @param {number} value at least 0, where one may have a sign */
  signed(value) {
    let left = value;
    while (left > 0x3f) {
      this.put((left % 128) | 0x80);
      left = Math.floor(left / 128);
    }
    this.put(left);
  }

  /** @param {Uint8Array} bytes behind their count */
  counted(bytes) {
    this.number(bytes.length);
    this.part(bytes);
  }
}

/**
 * How many values each type of function takes.
 * @param {Reader} from
 */
function taken_by_types(from) {
  const counts = [];
  for (let left = from.number(); left > 0; left--) {
    if (from.byte() !== 0x60) throw unknown("a type is none of a function");
    const count = from.number();
    from.part(count);
    from.part(from.number());
    counts.push(count);
  }
  return counts;
}

/**
 * The memory, which may grow to 2^32 bytes.
 * @param {Reader} from
 * @param {Writer} to
 */
function narrow_memory(from, to) {
  const [count, flags] = [from.number(), from.byte()];
  if (count !== 1 || (flags & ~1) !== WIDE) throw unknown("it has another memory than one of 64 bits");
  to.put(1, flags & 1);
  for (let left = 1 + (flags & 1); left > 0; left--) to.number(Math.min(from.number(), MOST_PAGES));
}

/**
 * The constants, each at its address.
 * @param {Reader} from
 * @param {Writer} to
 */
function narrow_data(from, to) {
  const count = from.number();
  to.number(count);
  for (let left = count; left > 0; left--) {
    if (from.byte() !== 0 || from.byte() !== OP.i64) throw unknown("a constant has no fixed place");
    const at = from.number();
    if (at >= 2 ** 31 || from.byte() !== OP.end) throw unknown("a constant has no place that is fixed and low");
    to.put(0, OP.i32);
    to.signed(at);
    to.put(OP.end);
    to.counted(from.part(from.number()));
  }
}

/** A function's code, and the variables that are put behind its own, by their types. */
class Code {
  /**
   * @param {Reader} from
   * @param {number} taken how many values it takes
   */
  constructor(from, taken) {
    this.from = from;
    this.to = new Writer();
    /** @type {[number, number][]} how many of which type */
    this.own = [];
    let count = taken;
    for (let left = from.number(); left > 0; left--) {
      const group = /** @type {[number, number]} */ ([from.number(), from.byte()]);
      this.own.push(group);
      count += group[0];
    }
    this.first = count;
    /** @type {number[]} */
    this.added = [];
  }

  /**
   * A variable of this type that isn't the one that is given.
   * @param {number} type
   */
  variable(type, but = -1) {
    let found = this.added.findIndex((it, number) => it === type && this.first + number !== but);
    if (found < 0) found = this.added.push(type) - 1;
    return this.first + found;
  }

  /** @param {number} variable */
  keep(variable) {
    this.to.put(OP.set);
    this.to.number(variable);
  }

  /** @param {number} variable */
  bring(variable) {
    this.to.put(OP.get);
    this.to.number(variable);
  }

  /**
   * Hands on what was read since then.
   * @param {number} start
   */
  copy(start) {
    this.to.part(this.from.bytes.subarray(start, this.from.at));
  }

  /**
   * Reads memory or writes it.
   * @param {number} op
   */
  access(op) {
    const [alignment, offset] = [this.from.number(), this.from.number()];
    if (alignment >= MOST_ALIGNMENT || offset >= 2 ** 32) throw unknown("an address is past 2^32");
    const kept = op >= OP.first_store ? this.variable(STORED[op - OP.first_store]) : -1;
    if (kept >= 0) this.keep(kept);
    this.to.put(OP.cut);
    if (kept >= 0) this.bring(kept);
    this.to.put(op, alignment);
    this.to.number(offset);
  }

  /**
   * Copies or fills memory.
   * @param {number} which of those behind `more`
   */
  move(which) {
    const count = this.variable(TYPE.i64);
    const other = which === MORE.copy ? this.variable(TYPE.i64, count) : this.variable(TYPE.i32);
    const start = this.from.at;
    this.from.part(which === MORE.copy ? 2 : 1);
    this.keep(count);
    this.keep(other);
    this.to.put(OP.cut);
    this.bring(other);
    if (which === MORE.copy) this.to.put(OP.cut);
    this.bring(count);
    this.to.put(OP.cut, OP.more, which);
    this.copy(start);
  }

  /**
   * Hands on an instruction that reads and writes no memory.
   * @param {number} op
   */
  other(op) {
    const start = this.from.at - 1;
    if (op === OP.br_table) for (let left = this.from.number() + 1; left > 0; left--) this.from.pass();
    else if (op === OP.typed_select) this.from.part(this.from.number());
    else if (op === OP.f32 || op === OP.f64) this.from.part(op === OP.f32 ? 4 : 8);
    else if ((op >= OP.block && op <= OP.if) || op === OP.br || op === OP.br_if || op === OP.call || (op >= 0x20 && op <= 0x24) || op === OP.i32 || op === OP.i64) this.from.pass();
    else if (!PLAIN.has(op) && !(op > OP.f64 && op <= OP.last_plain)) throw unknown(`it has the instruction ${op}`);
    this.copy(start);
  }

  /** Hands on the next instruction. */
  step() {
    const start = this.from.at;
    const op = this.from.byte();
    if (op >= OP.first_load && op <= OP.last_store) this.access(op);
    else if (op === OP.size || op === OP.grow) {
      this.from.byte();
      this.to.put(...(op === OP.size ? [op, 0, OP.widen] : [OP.cut, op, 0, OP.widen_signed]));
    } else if (op === OP.more) {
      const which = this.from.number();
      if (which === MORE.copy || which === MORE.fill) this.move(which);
      else if (which > MORE.last_plain) throw unknown(`it has the instruction ${op} ${which}`);
      else this.copy(start);
    } else this.other(op);
  }

  /** All of it: its variables, and its instructions. */
  narrowed() {
    while (!this.from.is_at_end) this.step();
    const all = new Writer();
    all.number(this.own.length + this.added.length);
    for (const [count, type] of [...this.own, ...this.added.map(it => [1, it])]) {
      all.number(count);
      all.put(type);
    }
    all.part(this.to.bytes);
    return all.bytes;
  }
}

/**
 * @param {Reader} from
 * @param {Writer} to
 * @param {number[]} taken how many values each function takes
 */
function narrow_code(from, to, taken) {
  const count = from.number();
  to.number(count);
  for (let number = 0; number < count; number++) to.counted(new Code(new Reader(from.part(from.number())), taken[number]).narrowed());
}

/**
 * The module with addresses of 32 bits. It throws where the module has what isn't known here.
 * @param {Uint8Array} module
 */
export function narrowed(module) {
  const from = new Reader(module);
  const to = new Writer();
  let [types, taken] = [/** @type {number[]} */ ([]), /** @type {number[]} */ ([])];
  to.part(from.part(8));
  while (!from.is_at_end) {
    const [id, bytes] = [from.byte(), from.part(from.number())];
    const [part, made] = [new Reader(bytes), new Writer()];
    if (id === SECTION.table) throw unknown("it has a table");
    if (id === SECTION.type) types = taken_by_types(part);
    if (id === SECTION.function) taken = Array.from({ length: part.number() }, () => types[part.number()]);
    if (id === SECTION.memory) narrow_memory(part, made);
    else if (id === SECTION.code) narrow_code(part, made, taken);
    else if (id === SECTION.data) narrow_data(part, made);
    else made.part(bytes);
    if (id === SECTION.custom) continue;
    to.put(id);
    to.counted(made.bytes);
  }
  return to.bytes;
}
