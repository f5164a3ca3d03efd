% Ways of a shortest path, by the library's path over edges.
% asks: best
% known by: fzn-gecode 6.2
include "globals.mzn";
array [1..8] of int: from = [1, 1, 2, 2, 3, 4, 5, 4];
array [1..8] of int: to = [2, 3, 4, 5, 5, 6, 6, 5];
array [1..8] of int: length = [4, 2, 3, 6, 5, 2, 4, 1];
array [1..6] of var bool: on;
array [1..8] of var bool: edge;
var 0..30: total;
constraint bounded_dpath(6, 8, from, to, length, 1, 6, on, edge, total);
solve minimize total;
output ["\(total)"];
