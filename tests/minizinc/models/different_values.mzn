% Three numbers of which two are different.
% asks: all
% known by: hand (3 * 2 * 3)
include "globals.mzn";
array [1..3] of var 1..3: x;
constraint nvalue(2, x);
solve satisfy;
output [show(x)];
