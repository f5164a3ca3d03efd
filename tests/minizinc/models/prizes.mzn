% A tour of some of six towns, by what is won there less the way.
% asks: best
% known by: fzn-gecode 6.2
include "globals.mzn";
array [1..6] of int: prize = [0, 7, 4, 9, 3, 6];
array [1..6, 1..6] of int: way = array2d(1..6, 1..6, [abs(3 * (i - j)) mod 7 | i, j in 1..6]);
array [1..6] of var 1..6: next;
constraint subcircuit(next) /\ next[1] != 1;
var int: gain = sum (i in 1..6) (prize[i] * bool2int(next[i] != i)) - sum (i in 1..6) (way[i, next[i]]);
solve maximize gain;
output ["\(gain)"];
