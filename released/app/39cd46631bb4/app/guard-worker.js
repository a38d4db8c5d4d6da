// @ts-check
// The second place of a new store: copies of its files in a database. Each is one transaction, told once it is on the disk.
import { ANSWERS } from "./guard.js";
import { STORES, asked, opened } from "./database.js";

/** @type {IDBDatabase} */
let database;
/** @type {Int32Array} */
let answer;

/**
 * @param {string} name
 * @param {object | null} held
 */
async function keep(name, held) {
  const change = database.transaction(STORES.beginnings, "readwrite", { durability: "strict" });
  const done = new Promise((resolve, reject) => {
    change.oncomplete = resolve;
    change.onabort = () => reject(change.error);
  });
  if (held) change.objectStore(STORES.beginnings).put(held, name);
  else change.objectStore(STORES.beginnings).delete(name);
  await done;
}

onmessage = async ({ data }) => {
  if (data.opened) {
    try {
      answer = data.answer;
      database = await opened();
      return postMessage({ held: await asked(database.transaction(STORES.beginnings).objectStore(STORES.beginnings).get(data.opened)) });
    } catch (why) {
      return postMessage({ failed: String(why) });
    }
  }
  let came = ANSWERS.done;
  try {
    await keep(data.name, data.is_erased ? null : data.held);
  } catch {
    came = ANSWERS.failed;
  }
  Atomics.store(answer, 0, came);
  Atomics.notify(answer, 0);
};
