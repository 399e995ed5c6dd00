var 0..3: n;
constraint n > 1;
var 0.0..1.0: share; var 0.0..1.0: rest;
constraint 2.5 * share + 1.5 * rest <= 2.0;
solve satisfy;
