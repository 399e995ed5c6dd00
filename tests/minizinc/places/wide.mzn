var 0..100000: x;
var 0..100000: y;
constraint x <= y;
constraint 2000 * x - 3 * y != 50;
solve satisfy;
