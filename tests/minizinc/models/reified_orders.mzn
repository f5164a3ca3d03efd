% Three rows of which those in order are counted.
% asks: all
% known by: fzn-gecode 6.2
include "globals.mzn";
array [1..3, 1..2] of var 0..1: x;
var 0..2: ups = sum (i in 1..2) (bool2int(lex_less(x[i, ..], x[i + 1, ..])));
constraint ups = 1 /\ not lex_lesseq(x[1, ..], x[3, ..]);
solve satisfy;
output ["\(x) \(ups)"];
