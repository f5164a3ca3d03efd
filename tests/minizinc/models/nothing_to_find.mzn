% A model without variables.
% asks: all
% known by: hand
int: n = 3;
constraint n > 2;
solve satisfy;
output ["n = \(n)"];
