% A set of names, and what it may hold.
% asks: all
% known by: fzn-gecode 6.2
enum Person = {Ann, Bob, Cid, Dan, Eve};
var set of Person: team;
var set of Person: rest = Person diff team;
constraint card(team) in 2..3;
constraint Ann in team -> not (Bob in team);
constraint Cid in team <-> Dan in team;
constraint {Bob, Eve} subset team \/ Dan in rest;
solve satisfy;
output ["\(team) \(rest)"];
