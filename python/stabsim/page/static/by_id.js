// @ts-check
// Elements of the page by their ids, each of the kind that it is in index.html.

/** @param {string} id */
export const by = (id) => /** @type {HTMLElement} */ (document.getElementById(id));

/** @param {string} id */
export const fieldBy = (id) => /** @type {HTMLInputElement & HTMLTextAreaElement} */ (document.getElementById(id));

/** @param {string} id */
export const buttonBy = (id) => /** @type {HTMLButtonElement} */ (document.getElementById(id));

/** @param {string} id */
export const dialogBy = (id) => /** @type {HTMLDialogElement} */ (document.getElementById(id));
