/*! sum.js | (c) the authors | @license MIT */
import { sum } from "./lib/sum.mjs";

const text = "/*! no comment */";
console.log(sum("1 of 2"), text, /[/*!]/); // nor one for licences
