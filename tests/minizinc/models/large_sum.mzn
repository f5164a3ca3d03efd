% Two thousand numbers from 0 to 3 whose weighted sum is as large as may be.
% asks: best
% known by: hand (each number 3 but for what the limit takes)
int: n = 2000;
array [1..n] of var 0..3: x;
constraint sum(x) <= 5999;
var 0..3 * n * (n + 1) div 2: total = sum (i in 1..n) (i * x[i]);
solve :: int_search(x, input_order, indomain_max) maximize total;
output ["\(total)"];
