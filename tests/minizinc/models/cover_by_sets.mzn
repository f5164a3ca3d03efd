% The fewest of these sets that cover 1..8.
% asks: best
% known by: fzn-gecode 6.2
array [1..6] of set of int: part = [{1, 2, 3}, {4, 5}, {6, 7, 8}, {1, 4, 6}, {2, 5, 7, 8}, {3, 8}];
array [1..6] of var bool: taken;
constraint forall (v in 1..8) (exists (p in 1..6 where v in part[p]) (taken[p]));
solve minimize sum(taken);
output ["\(sum(taken))"];
