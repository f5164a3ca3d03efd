% All round trips through four places.
% asks: all
% known by: hand (3!)
include "globals.mzn";
array [1..4] of var 1..4: next;
constraint circuit(next);
solve satisfy;
output [show(next)];
