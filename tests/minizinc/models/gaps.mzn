% Numbers of sets with gaps, as data and as domains.
% asks: all
% known by: hand (by trying)
set of int: odd = {1, 3, 5, 9};
var odd: x;
var {-4, -1, 0, 2, 8}: y;
var int: z;
constraint z = x + y /\ z in odd diff {1} union {13};
solve satisfy;
output ["\(x) \(y) \(z)"];
