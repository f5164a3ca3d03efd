% The fewest coins for 68.
% asks: best
% known by: hand (50, 10, 5, 2, 1)
array [1..5] of int: coin = [1, 2, 5, 10, 50];
array [1..5] of var 0..68: n;
constraint sum (i in 1..5) (coin[i] * n[i]) = 68;
solve minimize sum(n);
output [show(sum(n))];
