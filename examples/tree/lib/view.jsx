/*! view.jsx | (c) the authors | @license MIT */
import { sum } from "./sum.mjs";

export const View = ({ text, to = "#" }) => (
  <section data-kind='a "kind"'>
    <p>Don't count {text} / 2 by hand: {sum(text) / 2}. {/*! the picture is free | @license CC0 */}</p>
    <img-frame src={to.replace(/\/$/, "")} alt="It's /* no comment */"/>
  </section>
);
