/*! One */
let a = 1; // @license Two
/* none */
