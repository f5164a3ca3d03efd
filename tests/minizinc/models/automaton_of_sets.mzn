% The words of length 4 over 1, 2 whose last but one is 1.
% asks: all
% known by: hand
include "globals.mzn";
array [1..4] of var 1..2: x;
constraint regular_nfa(x, 3, 2, [| {1, 2}, {1} | {3}, {3} | {}, {} |], 1, {3});
solve satisfy;
output [show(x)];
