% A list of five that counts itself.
% asks: all
% known by: hand (2 1 2 0 0)
array [0..4] of var 0..4: x;
constraint forall (i in 0..4) (x[i] = sum (j in 0..4) (x[j] = i));
solve satisfy;
output [show(x)];
