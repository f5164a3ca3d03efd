% Tasks of a project of which some may be left out, each at a loss.
% asks: best
% known by: fzn-gecode 6.2
include "globals.mzn";
array [1..4] of int: length = [2, 3, 2, 4];
array [1..4] of int: need = [2, 1, 2, 1];
array [1..4] of int: worth = [5, 4, 6, 3];
array [1..4] of var opt 0..5: start;
constraint cumulative(start, length, need, 2);
constraint forall (t in 1..4) (occurs(start[t]) -> deopt(start[t]) + length[t] <= 6);
var int: gain = sum (t in 1..4) (bool2int(occurs(start[t])) * worth[t]);
solve maximize gain;
output ["\(gain)"];
