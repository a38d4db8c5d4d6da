// @ts-check
// The station's own page in a frame, whose requests the station's web server answers.

/**
 * What the page in the frame asks.
 * @typedef {{ number: number, does: "ask" | "follow" | "close", method: string, path: string, headers: Record<string, string>, body: string }} Asked
 */

const FRAME = new URL("frame.html", import.meta.url).href;

/**
 * Answers what the frame's page asks, by its port.
 * @param {import("./station.js").Station} station
 * @param {MessagePort} port
 */
function answer_by(station, port) {
  /** @type {Map<number, () => void>} */
  const followed = new Map();
  port.onmessage = async ({ data }) => {
    const asked = /** @type {Asked} */ (data);
    const { number } = asked;
    if (asked.does === "close") {
      followed.get(number)?.();
      followed.delete(number);
    } else if (asked.does === "follow") {
      followed.set(number, station.follow(asked.path, (status, text, is_over) => port.postMessage({ number, status, text, is_over })));
    } else {
      try {
        port.postMessage({ number, ...(await station.ask(asked.method, asked.path, asked.headers, asked.body)) });
      } catch {
        port.postMessage({ number, failed: true });
      }
    }
  };
}

/**
 * Shows the station's page.
 * @param {import("./station.js").Station} station
 * @param {HTMLIFrameElement} frame
 * @param {string} behind what stands behind the page's address, as its secret
 */
export async function show_page(station, frame, behind) {
  const { body } = await station.ask("GET", "");
  const { port1, port2 } = new MessageChannel();
  answer_by(station, port1);
  frame.onload = () => {
    frame.onload = null;
    /** @type {Window} */ (frame.contentWindow).postMessage({ page: body }, "*", [port2]);
  };
  frame.src = FRAME + behind;
}
