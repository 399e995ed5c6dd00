include "rules.mzn";
var 1..5: day;
var 1..5: ready;

constraint rested(day, ready);
solve satisfy;
