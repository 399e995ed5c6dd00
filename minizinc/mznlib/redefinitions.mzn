% What MiniZinc would write by builtins without a code, by builtins that have one (codes 1 to 39).
% rows_NAME is the builtin NAME itself: a library cannot both redefine and use it, and flatten.py takes the prefix off.

include "nosets.mzn";                    % set variables become arrays of Booleans
mzn_opt_only_range_domains = true;       % "var 1..5: x" and set_in, never "var {1,3,5}: x"

% ---- Booleans (nosets.mzn counts with bool_lin_eq)
predicate bool_lin_eq(array[int] of int: as, array[int] of var bool: bs, var int: c) =
  sum (i in index_set(as)) (as[i] * bool2int(bs[i])) = c;
predicate bool_lin_le(array[int] of int: as, array[int] of var bool: bs, int: c) =
  sum (i in index_set(as)) (as[i] * bool2int(bs[i])) <= c;

% ---- elements: lists of at most 32; a longer one (up to 1,024) in chunks of 32
predicate rows_array_int_element(var int: i, array[int] of int: as, var int: c);
predicate rows_array_var_int_element(var int: i, array[int] of var int: as, var int: c);
predicate array_int_element(var int: i, array[int] of int: as, var int: c) =
  if length(as) <= 32 then rows_array_int_element(i, as, c)
  else let { int: n = length(as); int: m = (n + 31) div 32; var 1..m: a; var 1..32: b;
             array[1..m] of var lb_array(as)..ub_array(as): p } in
    i = 32 * (a - 1) + b /\ (if ub(i) > n then i <= n else true endif) /\ rows_array_var_int_element(a, p, c) /\
    forall (k in 1..m) (rows_array_int_element(b, [as[min(32 * (k - 1) + j, n)] | j in 1..32], p[k]))
  endif;
predicate array_var_int_element(var int: i, array[int] of var int: as, var int: c) =
  if length(as) <= 32 then rows_array_var_int_element(i, as, c)
  else let { int: n = length(as); int: m = (n + 31) div 32; var 1..m: a; var 1..32: b;
             array[1..m] of var lb_array(as)..ub_array(as): p } in
    i = 32 * (a - 1) + b /\ (if ub(i) > n then i <= n else true endif) /\ rows_array_var_int_element(a, p, c) /\
    forall (k in 1..m) (rows_array_var_int_element(b, [as[min(32 * (k - 1) + j, n)] | j in 1..32], p[k]))
  endif;
predicate array_bool_element(var int: i, array[int] of bool: as, var bool: c) =
  array_int_element(i, [bool2int(a) | a in as], bool2int(c));
predicate array_var_bool_element(var int: i, array[int] of var bool: as, var bool: c) =
  array_var_int_element(i, [bool2int(a) | a in as], bool2int(c));

% ---- sets: at most 32 members, x encoded over at most 64 values
predicate rows_set_in(var int: x, set of int: S);
predicate rows_set_in_reif(var int: x, set of int: S, var bool: r);
function array[int] of set of int: rows_ranges(set of int: S) =
  let { array[int] of int: lo = [v | v in S where not (v - 1 in S)];
        array[int] of int: hi = [v | v in S where not (v + 1 in S)] } in [lo[k]..hi[k] | k in index_set(lo)];
predicate set_in(var int: x, set of int: S) =
  let { set of int: T = S intersect lb(x)..ub(x) } in
  if card(T) = 0 then false
  elseif max(T) - min(T) + 1 = card(T) then x >= min(T) /\ x <= max(T)
  elseif card(T) <= 32 /\ ub(x) - lb(x) < 64 then rows_set_in(x, T)
  elseif card(T) <= 1024 then let { var 1..card(T): i } in array_int_element(i, [v | v in T], x)
  else exists (R in rows_ranges(T)) (x >= min(R) /\ x <= max(R))
  endif;
predicate set_in_imp(var int: x, set of int: S, var bool: b) =
  let { var bool: r; constraint set_in_reif(x, S, r) } in bool_clause([r], [b]);
predicate set_in_reif(var int: x, set of int: S, var bool: r) =
  let { set of int: T = S intersect lb(x)..ub(x) } in
  if card(T) = 0 then bool_clause([], [r])
  elseif max(T) - min(T) + 1 = card(T) then
    if min(T) = lb(x) /\ max(T) = ub(x) then bool_clause([r], [])
    elseif min(T) = lb(x) then int_le_reif(x, max(T), r)
    elseif max(T) = ub(x) then int_le_reif(min(T), x, r)
    else let { var bool: a; var bool: b } in int_le_reif(min(T), x, a) /\ int_le_reif(x, max(T), b) /\ bool_and(a, b, r) endif
  elseif card(T) <= 32 /\ ub(x) - lb(x) < 64 then rows_set_in_reif(x, T, r)
  elseif length(rows_ranges(T)) > 8 /\ ub(x) - lb(x) < 1024 then
    array_bool_element(x - lb(x) + 1, [v in T | v in lb(x)..ub(x)], r)
  else r <-> exists (R in rows_ranges(T)) (x >= min(R) /\ x <= max(R))
  endif;

% ---- powers: code 39 has a number as exponent
predicate int_pow(var int: x, int: k, var int: z);
predicate int_pow(var int: x, var int: y, var int: z) =
  z = [if k >= 0 then pow(x, k) else bool2int(x = 1) + (1 - 2 * (abs(k) mod 2)) * bool2int(x = -1) endif
      | k in lb(y)..ub(y)][y - lb(y) + 1];
