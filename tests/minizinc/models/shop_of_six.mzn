% Six jobs on six machines, the known instance ft06.
% asks: best
% known by: hand (55, a known result)
include "globals.mzn";
int: n = 6;
array [1..n, 1..n] of int: machine = [|3, 1, 2, 4, 6, 5|2, 3, 5, 6, 1, 4|3, 4, 6, 1, 2, 5|2, 1, 3, 4, 5, 6|3, 2, 5, 6, 1, 4|2, 4, 6, 1, 5, 3|];
array [1..n, 1..n] of int: length = [|1, 3, 6, 7, 3, 6|8, 5, 10, 10, 10, 4|5, 4, 8, 9, 1, 7|5, 5, 5, 3, 8, 9|9, 3, 5, 4, 3, 1|3, 3, 9, 10, 4, 1|];
array [1..n, 1..n] of var 0..200: start;
var 0..200: end;
constraint forall (j in 1..n) (forall (k in 1..n - 1) (start[j, k] + length[j, k] <= start[j, k + 1]) /\ start[j, n] + length[j, n] <= end);
constraint forall (m in 1..n) (disjunctive([start[j, k] | j, k in 1..n where machine[j, k] = m], [length[j, k] | j, k in 1..n where machine[j, k] = m]));
solve :: int_search(array1d(start) ++ [end], smallest, indomain_min) minimize end;
output ["\(end)"];
