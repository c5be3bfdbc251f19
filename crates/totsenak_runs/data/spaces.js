let a = b /* c */ / d; // e
f ( 1 ) ;
c = 1 .a + +b;
