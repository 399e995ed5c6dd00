% The rules of shop.mzn.
predicate rested(var int: a, var int: b) =
  a != b;
var 0..3: staff;
var 0..3: guests;
constraint guests <= 2 * staff;
