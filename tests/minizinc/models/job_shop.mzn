% Three jobs on two machines, the least time of all.
% asks: best
% known by: another solver (Gecode 6.2)
include "globals.mzn";
array [1..3, 1..2] of int: time = [| 3, 2 | 2, 4 | 1, 3 |];
array [1..3, 1..2] of var 0..12: start;
var 0..15: last;
constraint forall (j in 1..3) (start[j, 1] + time[j, 1] <= start[j, 2] /\ start[j, 2] + time[j, 2] <= last);
constraint forall (m in 1..2, i, j in 1..3 where i < j) (start[i, m] + time[i, m] <= start[j, m] \/ start[j, m] + time[j, m] <= start[i, m]);
solve minimize last;
output [show(last)];
