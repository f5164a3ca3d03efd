% Things in three bins whose loads, sorted, differ little.
% asks: best
% known by: fzn-gecode 6.2
include "globals.mzn";
array [1..7] of int: w = [5, 8, 3, 7, 6, 4, 2];
array [1..7] of var 1..3: bin;
array [1..3] of var 0..35: load;
array [1..3] of var 0..35: sorted;
constraint bin_packing_load(load, bin, w) /\ sort(load, sorted) /\ value_precede_chain([1, 2, 3], bin);
solve minimize sorted[3] - sorted[1] + (sorted[3] - sorted[2]);
output ["\(sorted)"];
