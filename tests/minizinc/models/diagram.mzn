% What a decision diagram allows, and at what cost.
% asks: all
% known by: hand (its four ways)
include "globals.mzn";
array [1..3] of var 0..2: x;
constraint mdd(x, 4, [1, 2, 2, 3], 6, [1, 1, 2, 2, 3, 4], [{0}, {1}, {0}, {2}, {1}, {2}], [2, 3, 4, 4, 4, 0]);
constraint x[1] + x[2] > 0;
solve satisfy;
output ["\(x)"];
