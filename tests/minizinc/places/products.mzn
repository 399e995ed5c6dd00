var 0..100000: x;
var 0..100000: y;

constraint x * y = 7 * y;
solve satisfy;
