array[1..4] of int: price = [3, 5, 2, 8];
var 1..4: choice;
var 0..9: paid;
constraint choice <= paid;

constraint price[choice] = paid;
solve satisfy;
