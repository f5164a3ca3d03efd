% Words crossing in a square, by a table.
% asks: all
% known by: fzn-gecode 6.2
include "globals.mzn";
enum Letter = {A, B, D, E, I, N, O, R, T};
array [1..9, 1..3] of Letter: word = [|B, I, T|A, R, E|T, E, N|B, A, D|I, N, N|N, E, T|O, N, E|R, O, T|D, E, N|];
array [1..3, 1..3] of var Letter: x;
constraint forall (i in 1..3) (table(x[i, ..], word) /\ table(x[.., i], word));
solve satisfy;
output ["\(x)"];
