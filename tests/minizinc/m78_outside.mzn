array[1..40] of int: a = [(7 * k) mod 11 | k in 1..40];
array[1..33] of var 0..1: v; var 0..60: i; var 0..10: c; var 30..60: j; var 0..1: d;
constraint array_int_element(i, a, c);
constraint forall (k in 1..32) (v[k] = k mod 2) /\ array_var_int_element(j, v, d);
solve satisfy;
