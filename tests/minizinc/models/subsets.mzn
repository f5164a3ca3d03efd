% Subsets of 3, 5, 7, 8 with the sum 15.
% asks: all
% known by: hand (3 5 7; 7 8)
array [1..4] of int: size = [3, 5, 7, 8];
array [1..4] of var bool: taken;
constraint sum (i in 1..4) (size[i] * taken[i]) = 15;
solve satisfy;
output [show(taken)];
