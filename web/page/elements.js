// The elements of the page.

/**
 * The element with an id.
 * @param {string} id
 * @returns {any}
 */
export const part = (id) => document.getElementById(id);

/**
 * All elements that a selector finds.
 * @param {string} selector
 * @returns {any[]}
 */
export const all = (selector) => [...document.querySelectorAll(selector)];

/**
 * The button of an act.
 * @param {string} act
 * @returns {any}
 */
export const button = (act) => document.querySelector(`[data-act="${act}"]`);
