% How often 1 and 2 stand among three numbers, each once at least.
% asks: all
% known by: hand
include "globals.mzn";
array [1..3] of var 1..3: x;
array [1..2] of var 1..2: n;
constraint global_cardinality(x, [1, 2], n) /\ increasing(x);
solve satisfy;
output [show(x), show(n)];
