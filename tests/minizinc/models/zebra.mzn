% Three houses in a row: who drinks tea, and where is the cat?
% asks: all
% known by: hand (Ann 1 tea, Bob 2 milk with the dog, Cid 3 beer with the cat)
include "globals.mzn";
array [1..3] of var 1..3: house;  % of Ann, Bob, Cid
array [1..3] of var 1..3: drink;  % where tea, milk, beer are
array [1..2] of var 1..3: pet;    % where cat, dog are
constraint all_different(house) /\ all_different(drink) /\ all_different(pet);
constraint house[1] = drink[1];
constraint house[2] = house[1] + 1;
constraint pet[2] = house[2];
constraint pet[1] = drink[3] /\ drink[2] = 2;
constraint pet[1] > pet[2];
solve satisfy;
output [show(house), show(drink), show(pet)];
