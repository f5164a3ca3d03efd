% Zeros and ones with one or two ones among each three, of four.
% asks: all
% known by: another solver (Gecode 6.2)
include "globals.mzn";
array [1..4] of var 0..1: x;
constraint sliding_sum(1, 2, 3, x);
solve satisfy;
output [show(x)];
