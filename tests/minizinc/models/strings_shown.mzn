% What output can do with numbers, Booleans and text.
% asks: all
% known by: hand (by trying)
var 1..2: x;
var bool: b;
array [1..2] of string: word = ["one", "two"];
constraint b -> x = 2;
solve satisfy;
output ["x is \(word[fix(x)]), " ++ if fix(b) then "so be it" else "or not" endif ++ "; \(x + 1) \(format(4, x))|\(show_int(-3, x))|\n"];
