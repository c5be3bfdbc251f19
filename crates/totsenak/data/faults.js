let a = /x/gg;
f("😀",	3in x);
