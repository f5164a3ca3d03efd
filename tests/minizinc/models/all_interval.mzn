% Rows of 0..4 whose steps are all different.
% asks: all
% known by: another solver (Gecode 6.2)
include "globals.mzn";
array [1..5] of var 0..4: x;
constraint all_different(x) /\ all_different([abs(x[i] - x[i + 1]) | i in 1..4]);
solve satisfy;
output [show(x)];
