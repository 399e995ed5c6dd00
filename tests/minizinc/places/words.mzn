include "lex_less.mzn";
array[1..2] of var 0..2: one; array[1..2] of var 0..2: other;

constraint lex_less(one, other);
solve satisfy;
