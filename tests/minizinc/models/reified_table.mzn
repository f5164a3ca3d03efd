% Of two rows one is in a table of six columns.
% asks: all
% known by: a few lines of Python that try all
include "globals.mzn";
array [1..2, 1..6] of var 0..1: x;
array [1..3, 1..6] of int: t = [|0, 0, 1, 1, 0, 1|1, 1, 1, 0, 0, 0|0, 1, 0, 1, 0, 1|];
constraint table(x[1, ..], t) xor table(x[2, ..], t);
constraint forall (j in 1..6) (x[1, j] <= x[2, j]) /\ sum(x) = 7;
solve satisfy;
output ["\(x)"];
