% Tasks at different hours.
include "alldifferent.mzn";

array[1..3] of var 1..4: hour;
constraint hour[1] < hour[3];
constraint
  alldifferent(hour);
solve satisfy;
