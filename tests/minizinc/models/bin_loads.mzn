% Loads of two bins that are one apart.
% asks: all
% known by: another solver (Gecode 6.2)
include "globals.mzn";
array [1..2] of var 0..9: load;
array [1..4] of var 1..2: bin;
constraint bin_packing_load(load, bin, [1, 2, 3, 3]) /\ load[1] = load[2] + 1;
solve satisfy;
output [show(load), show(bin)];
