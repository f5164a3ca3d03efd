% Which goods to take.
% asks: best
% known by: hand (the second and the third: weight 9, value 100)
array [1..4] of int: weight = [5, 4, 5, 3];
array [1..4] of int: value = [45, 40, 60, 30];
array [1..4] of var 0..1: take;
var int: worth = sum (i in 1..4) (value[i] * take[i]);
constraint sum (i in 1..4) (weight[i] * take[i]) <= 9;
solve maximize worth;
output [show(worth)];
