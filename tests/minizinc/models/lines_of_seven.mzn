% Sets of points that meet every line of the plane of order 2; three points at least, which are then a line.
% asks: all
% known by: hand (the seven lines)
array [1..7] of set of int: line = [{1, 2, 3}, {1, 4, 5}, {1, 6, 7}, {2, 4, 6}, {2, 5, 7}, {3, 4, 7}, {3, 5, 6}];
var set of 1..7: points;
constraint card(points) = 3 /\ forall (l in 1..7) (card(points intersect line[l]) >= 1);
solve satisfy;
output ["\(points)"];
