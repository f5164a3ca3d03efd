% Four lands, each beside the next and the first beside all, in three colours.
% asks: all
% known by: hand (6 ways for a triangle, and the last land takes the second's colour)
array [1..4] of var 1..3: colour;
constraint forall (i in 2..4) (colour[1] != colour[i]) /\ forall (i in 2..3) (colour[i] != colour[i + 1]);
solve satisfy;
output [show(colour)];
