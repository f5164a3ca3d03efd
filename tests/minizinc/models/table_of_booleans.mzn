% Rows of a table of Booleans.
% asks: all
% known by: hand
include "globals.mzn";
array [1..3] of var bool: x;
constraint table(x, [| true, false, true | false, false, false | true, true, true |]) /\ x[3];
solve satisfy;
output [show(x)];
