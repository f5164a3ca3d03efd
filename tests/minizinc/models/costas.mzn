% Arrays of Costas of order 5.
% asks: all
% known by: hand (40, a known count)
include "globals.mzn";
int: n = 5;
array [1..n] of var 1..n: x;
constraint all_different(x) /\ forall (d in 1..n - 2) (all_different([x[i + d] - x[i] | i in 1..n - d]));
solve satisfy;
output ["\(x)"];
