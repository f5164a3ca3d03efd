% The shortest tour of five towns, with an annotation of another solver.
% asks: best
% known by: a few lines of Python that try all orders
include "globals.mzn";
include "chuffed.mzn";
int: n = 5;
array [1..n, 1..n] of int: way = [|0, 4, 7, 3, 9|4, 0, 2, 6, 5|7, 2, 0, 8, 3|3, 6, 8, 0, 4|9, 5, 3, 4, 0|];
array [1..n] of var 1..n: next;
constraint circuit(next);
var int: total = sum (i in 1..n) (way[i, next[i]]);
solve :: priority_search(next, [int_search([next[i]], input_order, indomain_min) | i in 1..n], smallest_largest) minimize total;
output ["\(total)"];
