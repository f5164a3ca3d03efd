% SEND + MORE = MONEY.
% asks: all
% known by: hand (the puzzle's one answer)
include "globals.mzn";
array [1..8] of var 0..9: letter;
var int: s = letter[1]; var int: e = letter[2]; var int: n = letter[3]; var int: d = letter[4];
var int: m = letter[5]; var int: o = letter[6]; var int: r = letter[7]; var int: y = letter[8];
constraint all_different(letter) /\ s > 0 /\ m > 0;
constraint 1000*s + 100*e + 10*n + d + 1000*m + 100*o + 10*r + e = 10000*m + 1000*o + 100*n + 10*e + y;
solve satisfy;
output [show(letter)];
