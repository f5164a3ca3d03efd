% Of three rows exactly one has equal numbers.
% asks: all
% known by: fzn-gecode 6.2
include "globals.mzn";
array [1..3, 1..2] of var 1..2: x;
constraint sum (i in 1..3) (bool2int(all_different(x[i, ..]))) = 2;
constraint all_equal(x[.., 1]) \/ not all_different(x[.., 2]);
solve satisfy;
output ["\(x)"];
