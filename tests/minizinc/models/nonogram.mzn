% A picture of five by five by the lengths of its runs.
% asks: all
% known by: fzn-gecode 6.2
include "globals.mzn";
array [1..5, 1..5] of var 0..1: x;
constraint regular(array1d(x[1, ..]), "0* 1 1 0+ 1 1 0*") /\ regular(array1d(x[2, ..]), "0* 1{5} 0*") /\ regular(array1d(x[3, ..]), "0* 1{5} 0*");
constraint regular(array1d(x[4, ..]), "0* 1{3} 0*") /\ regular(array1d(x[5, ..]), "0* 1 0*");
constraint forall (j in 1..5) (regular(x[.., j], "0* 1+ 0*"));
solve satisfy;
output [show2d(x)];
