import "./one.js"; import two, { a as b } from './t\u0077o.js' with { type: "json" };
export { a, b as "c d", default as e } from "three"; export * as all from "four"; export * from "five";
export default 1;
export const x = import(`./${x}.js`), { y } = z;
export let [p, { q }] = [], r;
export async function* gen() { return import("six").then(m => m.import("no")); }
export class K { import() {} static import(a = import('seven')) { import.meta.url; } }
const n = require("eight"), o = { import: 1 }.import ?.import("no"), t = `${import("nine", { with: {} })}import "no"`;
export var s, t2; // import "no"
import(/* what */ n + "x" /* is it */ , 1)
import(import("ten"))
