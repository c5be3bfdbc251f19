let a = /x/gg; // b
