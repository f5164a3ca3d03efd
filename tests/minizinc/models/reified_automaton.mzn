% Words over two letters: whether no two ones follow each other.
% asks: all
% known by: hand (by trying all words)
include "globals.mzn";
array [1..3] of var 1..2: x;
var bool: good;
constraint good <-> regular(x, 2, 2, [|2, 1|0, 1|], 1, {1, 2});
solve satisfy;
output ["\(x) \(good)"];
