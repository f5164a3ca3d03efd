% A table of ten thousand rows.
% asks: all
% known by: fzn-gecode 6.2
include "globals.mzn";
array [1..4] of var 0..99: x;
constraint table(x, array2d(1..10000, 1..4, [part | i in 0..9999, part in [i mod 100, i div 100, (i * i) mod 97, (7 * i) mod 100]]));
constraint x[1] + x[2] = 9 /\ x[3] <= x[4];
solve satisfy;
output ["\(x)"];
