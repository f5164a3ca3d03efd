% Five shifts of one nurse: off (1), day (2), night (3); a night is followed by a night or an off, and no three nights.
% asks: all
% known by: another solver (Gecode 6.2)
include "globals.mzn";
array [1..5] of var 1..3: shift;
array [1..3, 1..3] of 0..3: next = [| 1, 1, 2 | 1, 0, 3 | 1, 0, 0 |];
constraint regular(shift, 3, 3, next, 1, {1, 2, 3});
constraint shift[1] = 3 /\ count(shift, 2) = 2;
solve satisfy;
output [show(shift)];
