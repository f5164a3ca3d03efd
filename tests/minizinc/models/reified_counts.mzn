% Whether a row has more of one value than of another.
% asks: all
% known by: fzn-gecode 6.2
include "globals.mzn";
array [1..4] of var 1..3: x;
constraint count(x, 1) > count(x, 2) <-> at_least(2, x, 3);
constraint not at_most(1, x, 2) \/ among(x, {1, 3}) = 4;
constraint nvalue(x) = 2;
solve satisfy;
output ["\(x)"];
