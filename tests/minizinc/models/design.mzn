% Designs of seven blocks of three, with rows and columns in order.
% asks: all
% known by: fzn-gecode 6.2
include "globals.mzn";
array [1..7, 1..7] of var 0..1: x;
constraint forall (i in 1..7) (sum(x[i, ..]) = 3 /\ sum(x[.., i]) = 3);
constraint forall (i, j in 1..7 where i < j) (sum (k in 1..7) (x[i, k] * x[j, k]) = 1);
constraint lex2(x);
solve satisfy;
output [show2d(x)];
