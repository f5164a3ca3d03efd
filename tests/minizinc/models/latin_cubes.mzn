% Latin cubes of order 3, shown as dzn.
% asks: all
% known by: hand (24, a known count)
include "globals.mzn";
array [1..3, 1..3, 1..3] of var 1..3: x;
constraint forall (i, j in 1..3) (all_different(x[i, j, ..]) /\ all_different(x[i, .., j]) /\ all_different(x[.., i, j]));
solve satisfy;
output ["x = \(x);\n"];
