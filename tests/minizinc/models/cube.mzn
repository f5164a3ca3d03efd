% Cubes of two by two by two whose layers all hold two.
% asks: all
% known by: fzn-gecode 6.2
array [1..2, 0..1, 3..4] of var 0..1: x;
constraint forall (i in 1..2) (sum (j in 0..1, k in 3..4) (x[i, j, k]) = 2);
constraint forall (j in 0..1) (sum (i in 1..2, k in 3..4) (x[i, j, k]) = 2);
constraint forall (k in 3..4) (sum (i in 1..2, j in 0..1) (x[i, j, k]) = 2);
solve satisfy;
output [show3d(x)];
