% Each task runs on one of two machines; what doesn't run there is absent.
% asks: best
% known by: fzn-gecode 6.2
include "globals.mzn";
int: n = 5;
array [1..n] of int: length = [3, 2, 4, 2, 3];
array [1..2, 1..n] of var opt 0..14: start;
array [1..n] of var 1..2: machine;
constraint forall (t in 1..n, m in 1..2) (occurs(start[m, t]) <-> machine[t] = m);
constraint forall (m in 1..2) (disjunctive([start[m, t] | t in 1..n], length));
var 0..14: end;
constraint forall (t in 1..n, m in 1..2) (occurs(start[m, t]) -> deopt(start[m, t]) + length[t] <= end);
solve minimize end;
output ["\(end)"];
