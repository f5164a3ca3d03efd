% Six golfers in three pairs for three days, no two in one pair twice; the first day is given.
% asks: all
% known by: fzn-gecode 6.2
include "globals.mzn";
array [1..3, 1..3] of var set of 1..6: pair;
constraint forall (d, p in 1..3) (card(pair[d, p]) = 2);
constraint forall (d in 1..3) (all_disjoint([pair[d, p] | p in 1..3]));
constraint forall (d, e in 1..3 where d < e) (forall (p, q in 1..3) (card(pair[d, p] intersect pair[e, q]) <= 1));
constraint pair[1, 1] = {1, 2} /\ pair[1, 2] = {3, 4};
constraint forall (d in 1..3) (1 in pair[d, 1] /\ min(pair[d, 2]) < min(pair[d, 3]));
constraint min(pair[2, 1] diff {1}) < min(pair[3, 1] diff {1});
solve :: set_search(array1d(pair), input_order, indomain_min, complete) satisfy;
output ["\(pair)"];
