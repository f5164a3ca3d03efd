% Permutations of three that are their own inverses.
% asks: all
% known by: hand (one that moves nothing, and three exchanges)
include "globals.mzn";
array [1..3] of var 1..3: x;
constraint inverse(x, x);
solve satisfy;
output [show(x)];
