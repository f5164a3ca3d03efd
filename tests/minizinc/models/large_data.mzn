% A knapsack of three hundred things from a file of data; only a few may be taken.
% asks: best
% known by: fzn-gecode 6.2
int: n;
array [1..n] of int: weight;
array [1..n] of int: worth;
array [1..n] of var 0..1: x;
constraint sum (i in 1..n) (weight[i] * x[i]) <= 60;
constraint sum(x) <= 2;
var int: total = sum (i in 1..n) (worth[i] * x[i]);
solve :: int_search(x, input_order, indomain_max) maximize total;
output ["\(total)"];
