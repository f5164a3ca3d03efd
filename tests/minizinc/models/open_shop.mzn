% Three jobs on three machines, in any order.
% asks: best
% known by: fzn-gecode 6.2
include "globals.mzn";
array [1..3, 1..3] of int: length = [|4, 2, 5|3, 6, 1|2, 4, 3|];
array [1..3, 1..3] of var 0..30: start;
var 0..30: end = max (j, m in 1..3) (start[j, m] + length[j, m]);
constraint forall (j in 1..3) (disjunctive(start[j, ..], length[j, ..]));
constraint forall (m in 1..3) (disjunctive(start[.., m], length[.., m]));
solve minimize end;
output ["\(end)"];
