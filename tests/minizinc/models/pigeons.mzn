% Five pigeons in four holes.
% asks: none
% known by: hand
include "globals.mzn";
array [1..5] of var 1..4: hole;
constraint all_different(hole);
solve satisfy;
