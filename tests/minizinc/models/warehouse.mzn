% Which of three warehouses to open for five shops.
% asks: best
% known by: another solver (Gecode 6.2)
array [1..5, 1..3] of int: cost = [| 4, 9, 6 | 8, 3, 5 | 7, 7, 2 | 3, 8, 9 | 6, 4, 4 |];
array [1..3] of int: room = [3, 2, 3];
array [1..5] of var 1..3: from;
array [1..3] of var bool: open;
constraint forall (s in 1..5) (open[from[s]]);
constraint forall (w in 1..3) (sum (s in 1..5) (from[s] = w) <= room[w]);
var int: total = sum (s in 1..5) (cost[s, from[s]]) + sum (w in 1..3) (5 * open[w]);
solve minimize total;
output [show(total)];
