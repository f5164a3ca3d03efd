% The seven states of Australia in three colours that have names.
% asks: all
% known by: hand (six colourings of the mainland, and three colours for Tasmania with each)
enum State = {WA, NT, SA, Q, NSW, V, T};
enum Colour = {red, green, blue};
array [1..9, 1..2] of State: border = [|WA, NT|WA, SA|NT, SA|NT, Q|SA, Q|SA, NSW|SA, V|Q, NSW|NSW, V|];
array [State] of var Colour: colour;
constraint forall (b in 1..9) (colour[border[b, 1]] != colour[border[b, 2]]);
solve satisfy;
output ["\(s) \(colour[s]) " | s in State];
