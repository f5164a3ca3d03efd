% Ten cars of six kinds on a line with five options, the known small instance.
% asks: all
% known by: hand (six, a known count)
include "globals.mzn";
array [1..6] of int: cars = [1, 1, 2, 2, 2, 2];
array [1..5, 1..6] of 0..1: option = [|1, 0, 0, 0, 1, 1|0, 0, 1, 1, 0, 1|1, 0, 0, 0, 1, 0|1, 1, 0, 1, 0, 0|0, 0, 1, 0, 0, 0|];
array [1..5] of int: most = [1, 2, 1, 2, 1];
array [1..5] of int: among_so_many = [2, 3, 3, 5, 5];
array [1..10] of var 1..6: x;
constraint global_cardinality(x, [i | i in 1..6], cars);
constraint forall (o in 1..5) (sliding_sum(0, most[o], among_so_many[o], [option[o, x[i]] | i in 1..10]));
solve satisfy;
output ["\(x)"];
