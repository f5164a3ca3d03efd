% Sets of numbers from 1 to 7 that hold half of their sum and the 7.
% asks: all
% known by: hand (four, a known count)
var set of 1..7: half;
constraint sum (i in 1..7) (i * bool2int(i in half)) = 14 /\ 7 in half;
solve satisfy;
output ["\(half)"];
