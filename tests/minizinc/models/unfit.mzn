% Two that must be both equal and apart.
% asks: none
% known by: hand
var 1..9: x; var 1..9: y;
constraint x + y = 10 /\ x - y = 1;
solve satisfy;
