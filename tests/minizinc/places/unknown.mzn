predicate mine(var int: a, var int: b);
var 1..3: x;
var 1..3: y;
constraint x < y;
constraint forall (k in 1..2) (mine(x, y));
solve satisfy;
