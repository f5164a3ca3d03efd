% Places of two numbers in an array of twenty thousand.
% asks: all
% known by: fzn-gecode 6.2
array [1..20000] of int: a = [(i * i) mod 9973 | i in 1..20000];
var 1..20000: i;
var 1..20000: j;
constraint a[i] = 4 /\ a[j] = a[i] + 5 /\ i < j;
solve satisfy;
output ["\(i) \(j)"];
