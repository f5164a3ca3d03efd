% Eight queens on a board.
% asks: all
% known by: hand (92, a known count)
include "globals.mzn";
array [1..8] of var 1..8: q;
constraint all_different(q) /\ all_different([q[i] + i | i in 1..8]) /\ all_different([q[i] - i | i in 1..8]);
solve :: int_search(q, dom_w_deg, indomain_middle) satisfy;
output ["\(q)"];
