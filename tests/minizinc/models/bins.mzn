% Five things in as few bins of 10 as serve.
% asks: best
% known by: hand (7+3, 6+4, 5)
include "globals.mzn";
array [1..5] of int: size = [7, 6, 5, 4, 3];
array [1..5] of var 1..4: bin;
constraint bin_packing(10, bin, size);
solve minimize max(bin);
output [show(max(bin))];
