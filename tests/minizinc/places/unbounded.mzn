var 1..3: x;

var int: y;
constraint x + y = 4;
solve satisfy;
