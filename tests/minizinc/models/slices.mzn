% A table whose rows and columns are taken as slices.
% asks: all
% known by: fzn-gecode 6.2
include "globals.mzn";
array [1..3, 1..3] of var 1..3: x;
constraint forall (i in 1..3) (all_different(row(x, i)) /\ all_different(x[.., i]));
constraint x[1, 1] = 2 /\ lex_less(x[2, ..], x[3, ..]) /\ sum(x[1..2, 1]) > 2;
solve satisfy;
output [show2d(x)];
