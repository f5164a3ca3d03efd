% Powers of small numbers that are at most 20 in size.
% asks: all
% known by: hand
var -2..3: x; var 0..3: y; var -20..20: z;
constraint pow(x, y) = z /\ x != 0 /\ x != 1 /\ y > 0;
solve satisfy;
output [show([x, y, z])];
