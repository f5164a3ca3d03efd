% Two each of 1..3 with so many between.
% asks: all
% known by: hand (3 1 2 1 3 2 and its reverse)
include "globals.mzn";
array [1..3] of var 1..6: first;
array [1..3] of var 1..6: second;
constraint forall (i in 1..3) (second[i] = first[i] + i + 1) /\ all_different(first ++ second);
solve satisfy;
output [show(first), show(second)];
