% A week of one ward: each day two nurses of four, nobody three days running, each four days at most.
% asks: best
% known by: another solver (Gecode 6.2)
array [1..4, 1..7] of var 0..1: works;
array [1..4, 1..7] of int: dislikes = [| 0, 3, 0, 1, 0, 2, 2 | 2, 0, 1, 0, 3, 0, 1 | 1, 1, 2, 0, 0, 0, 3 | 0, 2, 0, 2, 1, 1, 0 |];
constraint forall (d in 1..7) (sum (n in 1..4) (works[n, d]) = 2);
constraint forall (n in 1..4, d in 1..5) (works[n, d] + works[n, d + 1] + works[n, d + 2] <= 2);
constraint forall (n in 1..4) (sum (d in 1..7) (works[n, d]) <= 4);
var int: cost = sum (n in 1..4, d in 1..7) (dislikes[n, d] * works[n, d]);
solve minimize cost;
output [show(cost)];
