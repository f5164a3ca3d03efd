% More solutions than any time limit lists.
% shows: 1000
var 1..1000: a;
var 1..1000: b;
var 1..1000: c;
var 1..1000: d;
solve satisfy;
output ["a = \(a), b = \(b), c = \(c), d = \(d)\n"];
