% A sudoku of four by four.
% asks: all
% known by: hand
include "globals.mzn";
array [1..4, 1..4] of 0..4: given;
array [1..4, 1..4] of var 1..4: a;
constraint forall (i, j in 1..4 where given[i, j] > 0) (a[i, j] = given[i, j]);
constraint forall (i in 1..4) (all_different(row(a, i)) /\ all_different(col(a, i)));
constraint forall (r, c in {0, 2}) (all_different([a[r + i, c + j] | i, j in 1..2]));
solve satisfy;
output [show(array1d(a))];
