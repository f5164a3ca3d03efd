% Goods from sources to sinks on two days, the cheapest way; the array of three dimensions is data.
% asks: best
% known by: fzn-gecode 6.2
array [1..2, 1..2, 1..2] of int: cost = array3d(1..2, 1..2, 1..2, [3, 5, 4, 2, 6, 1, 5, 3]);
array [1..2, 1..2, 1..2] of var 0..4: sent;
constraint forall (s in 1..2) (sum (t, d in 1..2) (sent[s, t, d]) <= 6);
constraint forall (t, d in 1..2) (sum (s in 1..2) (sent[s, t, d]) = [|2, 3|4, 1|][t, d]);
var int: total = sum (s, t, d in 1..2) (cost[s, t, d] * sent[s, t, d]);
solve minimize total;
output ["total \(total)"];
