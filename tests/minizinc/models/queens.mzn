% Six queens, none beside another by rank, file or diagonal.
% asks: all
% known by: hand (the four ways)
include "globals.mzn";
int: n = 6;
array [1..n] of var 1..n: q;
constraint all_different(q) /\ all_different([q[i] + i | i in 1..n]) /\ all_different([q[i] - i | i in 1..n]);
solve :: int_search(q, first_fail, indomain_min) satisfy;
output [show(q)];
