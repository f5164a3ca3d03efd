% Truth tables: implication, exclusive or, equivalence, parity.
% asks: all
% known by: hand
array [1..4] of var bool: p;
constraint (p[1] -> p[2]) /\ (p[2] xor p[3]) /\ (p[3] <-> (p[4] \/ p[1])) /\ xorall(p);
solve satisfy;
output [show(p)];
