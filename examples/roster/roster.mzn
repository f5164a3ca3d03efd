% Who works when: each nurse has one shift a day, by rules that an automaton says.
include "globals.mzn";

enum Nurses;
int: days;
int: Off = 1;
int: Day = 2;
int: Night = 3;
array[1..2] of int: needed;                   % how many by day, and by night

array[Nurses, 1..days] of var Off..Night: works;

% After a night comes a night or a free day, and nobody has more than three day shifts in a row.
int: states = 5;                              % 1: rested, 2 to 4: so many days, 5: after a night
array[1..states, Off..Night] of int: next =
  [| 1, 2, 5
   | 1, 3, 5
   | 1, 4, 5
   | 1, 0, 0
   | 1, 0, 5 |];
constraint forall(n in Nurses)(regular([works[n, d] | d in 1..days], states, 3, next, 1, 1..states));

constraint forall(d in 1..days, s in Day..Night)(count([works[n, d] | n in Nurses], s) = needed[s - Off]);

% Each has so many free days at least.
int: free;
constraint forall(n in Nurses)(count([works[n, d] | d in 1..days], Off) >= free);

solve :: int_search([works[n, d] | d in 1..days, n in Nurses], first_fail, indomain_max) satisfy;

array[Off..Night] of string: letter = ["-", "d", "n"];
output [ "\(n): " ++ concat([letter[fix(works[n, d])] | d in 1..days]) ++ "\n" | n in Nurses ];
