/*! sum.js | (c) the authors | @license MIT */

/** Adds up what a text names. */
export const sum = (text) => (text.match(/[0-9]+/g) ?? []).reduce((total, word) => total + Number(word), 0);

/**
 * @preserve the second licence
 */
