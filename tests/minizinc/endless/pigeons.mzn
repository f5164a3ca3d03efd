% Three solutions are found at once, each better than the one before it; that no pigeon has to share its hole would be the fourth,
% which all ways of giving them holes are tried for.
% shows: 3
int: pigeons = 20;
array [1..pigeons] of var 1..pigeons - 1: hole;
var 1..4: grade;
constraint forall (i, j in 1..pigeons where i < j) (grade = 4 -> hole[i] != hole[j]);
solve :: int_search([grade] ++ hole, input_order, indomain_min, complete) maximize grade;
output ["grade = \(grade)\n"];
