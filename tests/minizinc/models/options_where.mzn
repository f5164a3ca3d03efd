% A sum and a greatest of those elements that a Boolean chooses.
% asks: all
% known by: fzn-gecode 6.2
array [1..4] of var 0..2: x;
array [1..4] of var bool: chosen;
constraint sum (i in 1..4 where chosen[i]) (x[i]) = 4;
constraint forall (i in 1..4 where chosen[i]) (x[i] > 0);
constraint forall (i in 1..4) (chosen[i] \/ x[i] = 0);
constraint exists (i in 1..3 where chosen[i]) (x[i + 1] = 2);
solve satisfy;
output ["\(x) \(chosen)"];
