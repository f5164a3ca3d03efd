% All quotients of -7, which are cut towards zero, and what is left.
% asks: all
% known by: hand
var -2..2: b; var -9..9: c; var -9..9: r;
constraint c = -7 div b /\ r = -7 mod b;
solve satisfy;
output [show([b, c, r])];
