% Permutations that are their own inverses, or move everything.
% asks: all
% known by: fzn-gecode 6.2
include "globals.mzn";
array [1..4] of var 1..4: x;
constraint all_different(x);
constraint inverse(x, x) <-> exists (i in 1..4) (x[i] = i);
solve satisfy;
output ["\(x)"];
