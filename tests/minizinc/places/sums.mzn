var 0..5: x; var 0..5: y;
var bool: small;
constraint x <= y;
/* A sum
   with a Boolean. */
constraint small <-> (2 * x + 3 * y <= 11);
solve satisfy;
