% Rows and columns of zeros and ones in order, two by two.
% asks: all
% known by: another solver (Gecode 6.2)
include "globals.mzn";
array [1..2, 1..2] of var 0..1: a;
constraint lex2(a);
solve satisfy;
output [show(array1d(a))];
