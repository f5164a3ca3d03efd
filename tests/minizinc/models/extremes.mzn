% The least is 2 and the greatest 3, of three.
% asks: all
% known by: hand (2^3 - 2)
array [1..3] of var 1..4: x;
constraint min(x) = 2 /\ max(x) = 3;
solve satisfy;
output [show(x)];
