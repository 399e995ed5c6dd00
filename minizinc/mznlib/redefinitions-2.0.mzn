% This file stands for the whole of MiniZinc's own: array_int_maximum and array_int_minimum have codes, bool_clause_reif is as it was.
predicate array_int_maximum(var int: m, array[int] of var int: x);
predicate array_int_minimum(var int: m, array[int] of var int: x);
predicate bool_clause_reif(array[int] of var bool: as, array[int] of var bool: bs, var bool: r) =
  clause(as, bs ++ [r]) /\ forall (a in as) (a -> r) /\ forall (b in bs) (b \/ r);
