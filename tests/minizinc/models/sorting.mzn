% What sorts to 1 2 2.
% asks: all
% known by: hand
include "globals.mzn";
array [1..3] of var 1..3: x;
constraint sort(x, [1, 2, 2]);
solve satisfy;
output [show(x)];
