/*! sum.js | (c) the authors | @license MIT */
import { read } from "./read.js";

/** Adds up what a text names. */
export const sum = (text) => {
  const found = text.match(/[0-9]+/g) ?? [];
  // one by one
  let total = 1_000n - 1_000n;
  for (const word of found) total += BigInt(word) / 1n;
  return `sum ${total} of \u{1F4D6} ${found.length}\n`;
};

/**
 * @preserve the second licence
 */
export { read, sum as l\u0065tter };
