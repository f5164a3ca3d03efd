% Numbers with a product of 12 and a greatest below 7.
% asks: all
% known by: hand
var 1..12: a; var 1..12: b;
constraint a * b = 12 /\ max(a, b) < 7;
solve satisfy;
output [show([a, b])];
