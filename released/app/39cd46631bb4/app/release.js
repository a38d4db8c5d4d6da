// @ts-check
// The app's own releases: what keeps it without a network, and that a newer one is taken by hand alone.

const LOCK = "a match is open";
const RELOADED = "reloaded";
const AGAIN = 10_000;

/** Which release this page is of. */
export const release = () => document.documentElement.dataset.release ?? "";

/**
 * Tells the service worker something, and answers which release it has.
 * @param {string} what
 * @returns {Promise<string>}
 */
async function told_worker(what) {
  const { active } = await navigator.serviceWorker.ready;
  const { port1, port2 } = new MessageChannel();
  return new Promise(resolve => {
    port1.onmessage = ({ data }) => resolve(data);
    /** @type {ServiceWorker} */ (active).postMessage(what, [port2]);
  });
}

/**
 * Waits until the app is kept, where it wasn't; a network that fails amid that leaves nothing kept.
 * @param {ServiceWorkerRegistration} found
 */
async function kept_whole({ active, installing }) {
  if (active || !installing) return;
  await new Promise((resolve, reject) => {
    installing.onstatechange = () => {
      if (installing.state === "redundant") reject(new Error("not all of it came: open this page again in a network"));
      if (installing.state === "activated") resolve(null);
    };
  });
}

/** Has the app be kept. It answers whether the page is loaded anew, so that it may share memory with its worker. */
export async function keep_app() {
  await kept_whole(await navigator.serviceWorker.register("sw.js"));
  await navigator.serviceWorker.ready;
  if (self.crossOriginIsolated || sessionStorage.getItem(RELOADED)) return false;
  if (!navigator.serviceWorker.controller) await new Promise(resolve => { navigator.serviceWorker.oncontrollerchange = resolve; });
  sessionStorage.setItem(RELOADED, "1");
  location.reload();
  return true;
}

/**
 * Says when a newer release is kept.
 * @param {() => void} heard
 */
export async function watch_releases(heard) {
  const ask = async () => { if ((await told_worker("which")) !== release()) heard(); };
  navigator.serviceWorker.addEventListener("controllerchange", () => ask());
  const found = await navigator.serviceWorker.ready;
  const look = () => found.update().catch(() => undefined);
  found.addEventListener("updatefound", () => {
    const { installing } = found;
    if (!installing) return;
    installing.onstatechange = () => {
      if (installing.state === "activated") ask();
      // not all of it came
      if (installing.state === "redundant") setTimeout(look, AGAIN);
    };
  });
  await ask();
  await look();
}

/** Whether a page of this app has a match open. */
export async function is_match_open() {
  const { held } = await navigator.locks.query();
  return (held ?? []).some(it => it.name?.startsWith(LOCK));
}

/**
 * Holds, as long as this page lives, that a match is open.
 * @param {string} name
 */
export function hold_match(name) {
  navigator.locks.request(LOCK + " " + name, { mode: "shared" }, () => new Promise(() => undefined));
}

/** Takes the newer release, where no match is open. It answers whether it did. */
export async function take_release() {
  if (await is_match_open()) return false;
  await told_worker("take");
  location.reload();
  return true;
}
