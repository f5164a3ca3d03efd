% A project with two resources and an order of tasks.
% asks: best
% known by: fzn-gecode 6.2
include "globals.mzn";
int: n = 7;
array [1..n] of int: length = [3, 2, 4, 2, 1, 3, 2];
array [1..n] of int: hands = [2, 1, 2, 1, 3, 1, 2];
array [1..n] of int: tools = [1, 1, 0, 1, 0, 1, 1];
array [1..5, 1..2] of int: before = [|1, 3|1, 4|2, 5|4, 6|5, 7|];
array [1..n] of var 0..20: start;
constraint forall (p in 1..5) (start[before[p, 1]] + length[before[p, 1]] <= start[before[p, 2]]);
constraint cumulative(start, length, hands, 3) /\ cumulative(start, length, tools, 1);
var 0..20: end = max (t in 1..n) (start[t] + length[t]);
solve minimize end;
output ["\(end)"];
