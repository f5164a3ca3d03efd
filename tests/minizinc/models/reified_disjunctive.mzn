% One of two machines is free of clashes, and not both.
% asks: all
% known by: fzn-gecode 6.2
include "globals.mzn";
array [1..2, 1..2] of var 0..2: s;
constraint disjunctive(s[1, ..], [1, 2]) xor disjunctive(s[2, ..], [2, 1]);
constraint s[1, 1] + s[2, 2] = 3;
solve satisfy;
output ["\(s)"];
