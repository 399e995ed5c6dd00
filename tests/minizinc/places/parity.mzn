array[1..33] of var bool: b;
constraint b[1] \/ b[2];
constraint xorall(b);
solve satisfy;
