% Three tasks one after another in six hours.
% asks: all
% known by: hand (3! orders without a gap)
include "globals.mzn";
array [1..3] of var 0..5: s;
array [1..3] of int: d = [1, 2, 3];
constraint disjunctive(s, d) /\ forall (i in 1..3) (s[i] + d[i] <= 6);
solve satisfy;
output [show(s)];
