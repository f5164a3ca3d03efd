% Two tasks of length 2 on one machine.
% asks: all
% known by: hand
include "globals.mzn";
array [1..2] of var 0..3: s;
constraint cumulative(s, [2, 2], [1, 1], 1);
solve satisfy;
output [show(s)];
