% A set at an index that varies.
% asks: all
% known by: fzn-gecode 6.2
array [1..3] of var set of 1..3: s;
var 1..3: i;
constraint s[i] = {1, 3} /\ forall (j in 1..3 where j != i) (card(s[j]) = 1 /\ s[j] subset s[i]);
solve satisfy;
output ["\(s) \(i)"];
