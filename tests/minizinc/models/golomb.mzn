% A ruler with four marks, all distances different, as short as can be.
% asks: best
% known by: hand (0 1 4 6)
include "globals.mzn";
array [1..4] of var 0..9: mark;
constraint mark[1] = 0 /\ strictly_increasing(mark);
constraint all_different([mark[j] - mark[i] | i, j in 1..4 where i < j]);
solve minimize mark[4];
output [show(mark[4])];
