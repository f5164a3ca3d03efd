% Which of three tasks can run together is said by a Boolean.
% asks: all
% known by: fzn-gecode 6.2
include "globals.mzn";
array [1..3] of var 0..2: s;
var bool: fits;
constraint fits <-> cumulative(s, [2, 1, 2], [1, 2, 1], 2);
constraint not fits -> s[1] = s[3];
solve satisfy;
output ["\(s) \(fits)"];
