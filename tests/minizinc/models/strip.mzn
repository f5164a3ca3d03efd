% Squares of 3, 2, 2, 1 and 1 in a strip of width 5, as short as may be.
% asks: best
% known by: fzn-gecode 6.2
include "globals.mzn";
array [1..5] of int: size = [3, 2, 2, 1, 1];
array [1..5] of var 0..10: x;
array [1..5] of var 0..4: y;
constraint forall (i in 1..5) (y[i] + size[i] <= 5) /\ diffn(x, y, size, size);
var 0..10: length = max (i in 1..5) (x[i] + size[i]);
solve minimize length;
output ["\(length)"];
