% Four people and four jobs at the least cost.
% asks: best
% known by: another solver (Gecode 6.2)
include "globals.mzn";
array [1..4, 1..4] of int: cost = [| 9, 2, 7, 8 | 6, 4, 3, 7 | 5, 8, 1, 8 | 7, 6, 9, 4 |];
array [1..4] of var 1..4: job;
constraint all_different(job);
var int: total = sum (i in 1..4) (cost[i, job[i]]);
solve minimize total;
output [show(total)];
