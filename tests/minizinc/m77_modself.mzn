var 1..3: y; var bool: b;
constraint y mod y = y;
solve satisfy;
