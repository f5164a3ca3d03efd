% A week of one nurse, by an automaton with costs.
% asks: best
% known by: fzn-gecode 6.2
include "globals.mzn";
array [1..7] of var 1..3: day;
var 0..60: cost;
constraint cost_regular(day, 4, 3, [|2, 3, 1|2, 3, 1|0, 4, 1|0, 0, 1|], 1, 1..4, [|4, 6, 0|5, 6, 1|0, 7, 1|0, 0, 2|], cost);
constraint global_cardinality_low_up(day, [1, 2, 3], [2, 2, 1], [4, 3, 3]);
solve minimize cost;
output ["\(cost)"];
