% Flows of 2 through a network of four places, at the least cost.
% asks: best
% known by: another solver (Gecode 6.2)
include "globals.mzn";
array [1..5, 1..2] of int: arc = [| 1, 2 | 1, 3 | 2, 4 | 3, 4 | 2, 3 |];
array [1..5] of var 0..1: flow;
var 0..20: cost;
constraint network_flow_cost(arc, [2, 0, 0, -2], [3, 1, 2, 4, 1], flow, cost);
solve minimize cost;
output [show(cost)];
