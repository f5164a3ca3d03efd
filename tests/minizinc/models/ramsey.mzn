% The edges of five points in two colours without a triangle of one.
% asks: all
% known by: hand (twelve, a pentagon and the star in it)
array [1..5, 1..5] of var bool: red;
constraint forall (i in 1..5) (not red[i, i]) /\ forall (i, j in 1..5 where i < j) (red[i, j] = red[j, i]);
constraint forall (i, j, k in 1..5 where i < j /\ j < k) (not (red[i, j] /\ red[j, k] /\ red[i, k]) /\ (red[i, j] \/ red[j, k] \/ red[i, k]));
solve satisfy;
output ["\(red)"];
