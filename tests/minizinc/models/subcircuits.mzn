% Round trips that may leave out places, of three.
% asks: all
% known by: hand (none moves; three pairs; two of three)
include "globals.mzn";
array [1..3] of var 1..3: next;
constraint subcircuit(next);
solve satisfy;
output [show(next)];
