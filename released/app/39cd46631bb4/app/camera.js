// @ts-check
// The tablet's camera, where the browser itself knows squares (`BarcodeDetector`). Elsewhere the tablet's own camera app reads one: it is a link to this app.
import { at, put_if } from "../dom.js";

const LOOKS = 200;
const BY_HAND = "Point the tablet's own camera app at the other square: it opens this app with the code. Or paste the code here.";

/**
 * Looks through the camera until a square is seen. It answers nothing where the panel was closed before.
 * @returns {Promise<string>}
 */
async function seen() {
  const video = /** @type {HTMLVideoElement} */ (at("camera"));
  const stream = await navigator.mediaDevices.getUserMedia({ video: { facingMode: "environment" } });
  video.srcObject = stream;
  video.hidden = false;
  video.play().catch(() => undefined);
  const detector = new /** @type {any} */ (window).BarcodeDetector({ formats: ["qr_code"] });
  let text = "";
  while (!text && !video.hidden && !at("panel").hidden) {
    const [found] = await detector.detect(video).catch(() => []);
    text = found?.rawValue ?? "";
    await new Promise(resolve => setTimeout(resolve, LOOKS));
  }
  stream.getTracks().forEach(it => it.stop());
  video.hidden = true;
  return text;
}

/**
 * Has the camera's button hand on what it sees, where there is one.
 * @param {(text: string) => void} taken
 */
export function offer_camera(taken) {
  const knows_squares = "BarcodeDetector" in window;
  at("scan").hidden = !knows_squares;
  put_if("by-camera", knows_squares ? "" : BY_HAND);
  at("scan").onclick = async () => {
    try {
      const text = await seen();
      if (text) taken(text);
    } catch {
      put_if("by-camera", "The camera isn't allowed, or none is there. " + BY_HAND);
    }
  };
}
