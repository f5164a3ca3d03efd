% Three rectangles in a box of 3 by 3.
% asks: all
% known by: another solver (Gecode 6.2)
include "globals.mzn";
array [1..3] of int: w = [1, 2, 2];
array [1..3] of int: h = [3, 2, 1];
array [1..3] of var 0..2: x;
array [1..3] of var 0..2: y;
constraint diffn(x, y, w, h) /\ forall (i in 1..3) (x[i] + w[i] <= 3 /\ y[i] + h[i] <= 3);
solve satisfy;
output [show(x), show(y)];
