% solve minimize cost; in a comment
string: title = "in \" solve minimize cost; \" text"; var 0..1: 'solve minimize';
/* solve
   minimize cost; */
var 0..5: cost;
constraint cost * cost >= 4;
solve
  :: int_search([cost], input_order, indomain_min)
  minimize cost;
