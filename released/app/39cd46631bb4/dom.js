// @ts-check
// Elements of the page, and how they are made. A name is never read as anything but text.

/**
 * @param {string} id
 * @returns {HTMLElement}
 */
export function at(id) {
  return /** @type {HTMLElement} */ (document.getElementById(id));
}

/**
 * A button, a field or a box by its id.
 * @param {string} id
 */
export function field(id) {
  return /** @type {HTMLInputElement} */ (at(id));
}

/**
 * An element with this text.
 * @template {keyof HTMLElementTagNameMap} Name
 * @param {Name} name
 * @param {string} [text]
 * @param {string} [kind]
 * @returns {HTMLElementTagNameMap[Name]}
 */
export function element(name, text, kind) {
  const made = document.createElement(name);
  if (text !== undefined) made.textContent = text;
  if (kind) made.className = kind;
  return made;
}

/**
 * A text, in a place that is hidden where there is none.
 * @param {string} id
 * @param {string | false | null | undefined} text
 */
export function put_if(id, text) {
  at(id).hidden = !text;
  at(id).textContent = text || "";
}

/**
 * A link by which something printed is kept as a file, or opened in a tab of its own.
 * @param {string} text
 * @param {Blob} blob
 * @param {string} [name]
 */
export function link(text, blob, name) {
  const made = element("a", text, "button");
  made.href = URL.createObjectURL(blob);
  if (name) made.download = name;
  else made.target = "_blank";
  return made;
}

/**
 * Keeps something as a file at once.
 * @param {string} name
 * @param {Blob} blob
 */
export function save(name, blob) {
  const made = link("", blob, name);
  made.click();
  setTimeout(() => URL.revokeObjectURL(made.href), 60_000);
}

/** Lets the page be drawn, and keys be taken, before the next piece of work. */
export function breath() {
  return new Promise(resolve => setTimeout(resolve));
}

/**
 * How far a work is that goes through many.
 * @param {string} what
 * @param {number} done
 * @param {number} all
 */
export async function put_progress(what, done, all) {
  const bar = /** @type {HTMLProgressElement} */ (at("progress"));
  bar.hidden = done === all;
  bar.max = all;
  bar.value = done;
  put_if("state", done === all ? "" : what + ": " + done + " of " + all);
  await breath();
}
