predicate apart(var int: a, var int: b, int: d) =
  a + d <= b;

var 0..9: start;
var 0..9: finish;
constraint start != finish; constraint apart(start, finish, 3);
solve satisfy;
