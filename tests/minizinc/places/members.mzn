var 0..200: y; var 0..200: z; var bool: r; var bool: s;
constraint r <-> y in {2, 9};
constraint s -> z in {4, 8};
solve satisfy;
