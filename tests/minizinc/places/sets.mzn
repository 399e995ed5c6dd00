var 1..4: n;
var set of 1..4: chosen;
constraint card(chosen) = n;
solve satisfy;
