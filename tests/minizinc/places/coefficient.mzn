var 0..1: x;
var 0..1: y;
constraint 200000000 * x + 3 * y <= 5;
solve satisfy;
