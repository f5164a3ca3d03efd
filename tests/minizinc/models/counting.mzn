% Four numbers: 1 twice, 2 once at least, 3 never more often than 2.
% asks: all
% known by: another solver (Gecode 6.2)
include "globals.mzn";
array [1..4] of var 1..3: x;
constraint exactly(2, x, 1) /\ at_least(1, x, 2) /\ count(x, 3) <= count(x, 2);
solve satisfy;
output [show(x)];
