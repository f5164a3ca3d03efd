% Three numbers that may be absent.
% asks: all
% known by: fzn-gecode 6.2
var opt 1..3: x;
var opt 2..4: y;
var opt 0..1: z;
constraint occurs(x) <-> absent(z);
constraint occurs(x) /\ occurs(y) -> deopt(x) + deopt(y) = 5;
constraint (occurs(y) /\ deopt(y) > 2) \/ occurs(z);
solve satisfy;
output ["\(x) \(y) \(z)"];
