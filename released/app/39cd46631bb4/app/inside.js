// Within the frame that shows a station's own page: that page asks its web server by `fetch` and `EventSource`, and both go to the page around it, by a
// port of theirs alone. The frame reaches no network.
"use strict";
(() => {
  const waiting = new Map();
  let [port, number] = [null, 0];

  const told = ({ data }) => waiting.get(data.number)?.(data);

  const say = (what, heard) => {
    waiting.set(++number, heard);
    port.postMessage({ number, ...what });
    return number;
  };

  window.fetch = (path, how = {}) => new Promise((resolve, reject) => {
    how.signal?.addEventListener("abort", () => reject(new DOMException("", "AbortError")));
    const asked = say({ does: "ask", method: how.method || "GET", path: String(path), headers: how.headers || {}, body: how.body || "" }, answer => {
      waiting.delete(asked);
      if (answer.failed) reject(new TypeError("there is no answer"));
      else resolve(new Response(answer.body, { status: answer.status, headers: answer.headers }));
    });
  });

  window.EventSource = class {
    static CONNECTING = 0;
    static OPEN = 1;
    static CLOSED = 2;

    constructor(path) {
      [this.readyState, this.held, this.heard, this.last] = [0, "", {}, ""];
      this.asked = say({ does: "follow", path: String(path) }, answer => this.came(answer));
    }

    came({ status, text, is_over }) {
      if (this.readyState === 2) return;
      if (status === 200 && this.readyState === 0) {
        this.readyState = 1;
        this.onopen?.({});
      }
      this.held += text;
      for (let end = this.held.indexOf("\n\n"); end >= 0; end = this.held.indexOf("\n\n")) {
        const event = this.held.slice(0, end);
        this.held = this.held.slice(end + 2);
        this.tell(event.split("\n"));
      }
      if (!is_over && status === 200) return;
      this.readyState = 2;
      this.onerror?.({});
    }

    tell(lines) {
      const of = name => lines.filter(it => it.startsWith(name + ":")).map(it => it.slice(name.length + 1).replace(/^ /, ""));
      const [type, data] = [of("event")[0] || "message", of("data").join("\n")];
      if (of("id").length) this.last = of("id")[0];
      if (!of("data").length) return;
      const event = { data, type, lastEventId: this.last };
      if (type === "message") this.onmessage?.(event);
      (this.heard[type] || []).forEach(it => it(event));
    }

    addEventListener(type, it) {
      (this.heard[type] ||= []).push(it);
    }

    close() {
      this.readyState = 2;
      waiting.delete(this.asked);
      port.postMessage({ number: this.asked, does: "close" });
    }
  };

  addEventListener("message", ({ data, ports, source }) => {
    if (source !== parent || port) return;
    port = ports[0];
    port.onmessage = told;
    history.replaceState = () => undefined;
    document.open();
    document.write(data.page);
    document.close();
  });
})();
