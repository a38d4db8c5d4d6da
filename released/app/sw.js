// Keeps the app on this tablet, so that it opens without a network, and adds the headers by which a page may share memory with its worker. What is shown is the
// release that was taken: a newer one is kept beside it until somebody takes it.
"use strict";
const RELEASE = "39cd46631bb4";
const FILES = ["index.html", "39cd46631bb4/app/app.css", "39cd46631bb4/app/app.js", "39cd46631bb4/app/camera.js", "39cd46631bb4/app/code.js", "39cd46631bb4/app/database.js", "39cd46631bb4/app/description.js", "39cd46631bb4/app/desk.js", "39cd46631bb4/app/frame.html", "39cd46631bb4/app/frame.js", "39cd46631bb4/app/guard-worker.js", "39cd46631bb4/app/guard.js", "39cd46631bb4/app/inside.js", "39cd46631bb4/app/joining.js", "39cd46631bb4/app/link.js", "39cd46631bb4/app/machine.js", "39cd46631bb4/app/making.js", "39cd46631bb4/app/network.js", "39cd46631bb4/app/playing.js", "39cd46631bb4/app/pool.js", "39cd46631bb4/app/ports.js", "39cd46631bb4/app/program.js", "39cd46631bb4/app/release.js", "39cd46631bb4/app/ring.js", "39cd46631bb4/app/running.js", "39cd46631bb4/app/sockets.js", "39cd46631bb4/app/square.js", "39cd46631bb4/app/station.js", "39cd46631bb4/app/words.js", "39cd46631bb4/dom.js", "39cd46631bb4/kernel.js", "39cd46631bb4/making.css", "39cd46631bb4/making.js", "39cd46631bb4/narrow.js", "39cd46631bb4/sheet.js", "icon.png", "manifest.webmanifest", "program-720a1209ec52.bin"];
const TAKEN = "taken";
const HEADERS = { "Cross-Origin-Opener-Policy": "same-origin", "Cross-Origin-Embedder-Policy": "require-corp", "Cross-Origin-Resource-Policy": "same-origin" };

const kept = release => "release " + release;

async function taken() {
  const found = await (await caches.open(TAKEN)).match("release");
  return found ? found.text() : "";
}

// Has this release be shown from now on, and no other be kept.
async function take() {
  await (await caches.open(TAKEN)).put("release", new Response(RELEASE));
  for (const name of await caches.keys()) if (name !== TAKEN && name !== kept(RELEASE)) await caches.delete(name);
}

async function install() {
  const cache = await caches.open(kept(RELEASE));
  await cache.addAll(FILES.map(it => new Request(it, { cache: "reload" })));
  if (!(await taken())) await take();
  await self.skipWaiting();
}

function isolated(answer) {
  const headers = new Headers(answer.headers);
  for (const [name, value] of Object.entries(HEADERS)) headers.set(name, value);
  return new Response(answer.body, { status: answer.status, statusText: answer.statusText, headers });
}

// What the taken release has of an address; where it has none, the host is asked.
async function answered(request) {
  const path = new URL(request.url).pathname;
  const scope = new URL(self.registration.scope).pathname;
  const name = path.startsWith(scope) ? path.slice(scope.length) || "index.html" : path;
  const found = await (await caches.open(kept(await taken()))).match(new URL(name, self.registration.scope));
  return isolated(found || await fetch(request));
}

self.addEventListener("install", event => event.waitUntil(install()));
self.addEventListener("activate", event => event.waitUntil(self.clients.claim()));
self.addEventListener("fetch", event => {
  const is_ours = event.request.method === "GET" && new URL(event.request.url).origin === self.location.origin;
  if (is_ours) event.respondWith(answered(event.request));
});
self.addEventListener("message", event => {
  const work = event.data === "take" ? take() : Promise.resolve();
  event.waitUntil(work.then(() => event.ports[0].postMessage(RELEASE)));
});
