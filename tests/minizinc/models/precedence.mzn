% Names given in order of their first use.
% asks: all
% known by: hand (the five ways to part three things)
include "globals.mzn";
array [1..3] of var 1..3: x;
constraint seq_precede_chain(x);
solve satisfy;
output [show(x)];
