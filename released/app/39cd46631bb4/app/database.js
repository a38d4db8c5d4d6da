// @ts-check
// The app's database: the matches of this tablet, and the beginnings of new stores.

export const STORES = { matches: "matches", beginnings: "beginnings" };

/**
 * What a request comes to.
 * @template T
 * @param {IDBRequest<T>} request
 * @returns {Promise<T>}
 */
export function asked(request) {
  return new Promise((resolve, reject) => {
    request.onsuccess = () => resolve(request.result);
    request.onerror = () => reject(request.error);
  });
}

export function opened() {
  const request = indexedDB.open("yermudosh", 1);
  request.onupgradeneeded = () => Object.values(STORES).forEach(it => request.result.createObjectStore(it));
  return asked(request);
}

/**
 * A match that this tablet keeps, under the name of its store.
 * @typedef {object} Match
 * @property {string} name
 * @property {"a" | "b" | "1" | "2"} station which desk or board it is
 * @property {string} title
 * @property {string} sheet the sheet, as text
 * @property {string} key the key's file
 * @property {number} made when, in milliseconds since 1970 began
 * @property {boolean} is_begun whether its desk was begun here before
 * @property {string[]} met the stations that it was joined to before
 */

/** @returns {Promise<Match[]>} the newest first */
export async function all_matches() {
  const database = await opened();
  const found = await asked(database.transaction(STORES.matches).objectStore(STORES.matches).getAll());
  database.close();
  return found.sort((one, other) => other.made - one.made);
}

/**
 * Has a match, or none, stand under this name. It answers once that is on the disk.
 * @param {string} name
 * @param {Match | null} match
 */
export async function put_match(name, match) {
  const database = await opened();
  const change = database.transaction(STORES.matches, "readwrite", { durability: "strict" });
  const done = new Promise((resolve, reject) => {
    change.oncomplete = resolve;
    change.onabort = () => reject(change.error);
  });
  if (match) change.objectStore(STORES.matches).put(match, name);
  else change.objectStore(STORES.matches).delete(name);
  await done;
  database.close();
}
