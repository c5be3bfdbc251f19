/*! Licence of a */
let a = b /* c */ / d; // e
f(`/* ${ /* g */ h } */`, /* i
 */ "// j");
