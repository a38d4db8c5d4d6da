// A store as a browser's is, in memory: what was flushed is on the disk, what was only written may be lost in part by a power cut. A plan may have one call fail.
const NAMES = 1;
const FILES = 8;

/** The disk's bytes of each file, and a count of the calls that change one. */
export class Store {
  constructor(images = [], plan = null) {
    this.plan = plan; // { call, how }: the number of the call that fails, and how
    this.calls = [];
    this.handles = Array.from({ length: NAMES + FILES }, (_, number) => new Handle(this, number, images[number] ?? new Uint8Array(0)));
  }

  /** Notes a call, and fails it where that is planned: "refused" before it does anything, "full" the same, "short" after half, "late" after all. */
  called(handle, name, does, half) {
    const number = this.calls.push(`${name} of ${handle.number ? "file " + handle.number : "names"}`) - 1;
    const how = this.plan && this.plan.call === number ? this.plan.how : "";
    if (how === "full") throw Object.assign(new Error(), { name: "QuotaExceededError" });
    if (how === "refused") throw new Error("refused");
    if (how === "short" && half) return half();
    const answer = does();
    if (how === "late") throw new Error("refused, after it was done");
    return answer;
  }

  /** What the disk may have after a power cut: of each file what was flushed, and so many of its later writes. */
  images(later = () => 0) {
    return this.handles.map(it => it.image(later(it.pending.length)));
  }
}

class Handle {
  constructor(store, number, image) {
    [this.store, this.number, this.bytes, this.durable, this.pending] = [store, number, image.slice(), image.slice(), []];
  }

  change(to) {
    this.bytes = to(this.bytes);
    this.pending.push(to);
  }

  image(count) {
    return this.pending.slice(0, count).reduce((bytes, to) => to(bytes), this.durable).slice();
  }

  read(into, { at }) {
    const got = this.bytes.subarray(at, at + into.length);
    into.set(got);
    return got.length;
  }

  write(bytes, { at }) {
    const put = some => {
      const copy = some.slice();
      this.change(old => {
        const all = new Uint8Array(Math.max(old.length, at + copy.length));
        all.set(old);
        all.set(copy, at);
        return all;
      });
      return copy.length;
    };
    return this.store.called(this, "write", () => put(bytes), () => put(bytes.subarray(0, bytes.length >> 1)));
  }

  truncate(size) {
    this.store.called(this, "truncate", () => this.change(old => {
      const all = new Uint8Array(size);
      all.set(old.subarray(0, size));
      return all;
    }));
  }

  flush() {
    this.store.called(this, "flush", () => {
      [this.durable, this.pending] = [this.bytes.slice(), []];
    });
  }

  getSize() {
    return this.bytes.length;
  }

  close() {}
}
