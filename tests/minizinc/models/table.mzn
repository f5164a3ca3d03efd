% Rows of a table with rising ends.
% asks: all
% known by: hand
include "globals.mzn";
array [1..3] of var 1..4: x;
constraint table(x, [| 1, 2, 3 | 4, 1, 2 | 2, 2, 2 | 1, 4, 4 |]) /\ x[1] < x[3];
solve satisfy;
output [show(x)];
