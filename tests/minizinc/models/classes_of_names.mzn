% A row over two kinds of names, by functions over them.
% asks: all
% known by: fzn-gecode 6.2
include "globals.mzn";
enum Fruit = {apple, pear, plum};
array [Fruit] of int: price = [3, 4, 6];
array [Fruit] of var 0..3: bought;
var Fruit: most;
constraint sum (f in Fruit) (price[f] * bought[f]) = 21;
constraint forall (f in Fruit where f != most) (bought[most] > bought[f]);
constraint increasing([bought[f] | f in Fruit where f > apple]);
solve satisfy;
output ["\(bought) \(most)"];
