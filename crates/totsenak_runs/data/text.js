let a = "x\ty" + 'it\u0027s' + "\ud800";
b = `c${d}😀`;
