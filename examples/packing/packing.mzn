% Boxes on a pallet: none overlaps another, and the pallet is as short as may be.
include "globals.mzn";

int: boxes;
int: width;
array[1..boxes] of int: wide;
array[1..boxes] of int: long;

int: most = sum(long);
array[1..boxes] of var 0..width: x;
array[1..boxes] of var 0..most: y;
var 0..most: length;

constraint forall(b in 1..boxes)(x[b] + wide[b] <= width /\ y[b] + long[b] <= length);
constraint diffn(x, y, wide, long);

solve :: int_search([length] ++ y ++ x, input_order, indomain_min) minimize length;

output ["length \(length)\n"] ++ [ "box \(b) at \(x[b]), \(y[b])\n" | b in 1..boxes ];
