% A magic square of nine, its least corner first and the row above its column.
% asks: all
% known by: hand (the one square up to symmetry)
include "globals.mzn";
array [1..3, 1..3] of var 1..9: a;
constraint all_different(array1d(a));
constraint forall (i in 1..3) (sum (j in 1..3) (a[i, j]) = 15 /\ sum (j in 1..3) (a[j, i]) = 15);
constraint sum (i in 1..3) (a[i, i]) = 15 /\ sum (i in 1..3) (a[i, 4 - i]) = 15;
constraint a[1, 1] < a[1, 3] /\ a[1, 1] < a[3, 1] /\ a[1, 1] < a[3, 3] /\ a[1, 3] < a[3, 1];
solve satisfy;
output [show(array1d(a))];
