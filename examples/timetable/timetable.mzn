% When and where lessons take place: no teacher, class or room has two at a time.
include "globals.mzn";

int: slots;
int: rooms;
enum Teachers;
enum Classes;
int: lessons;
array[1..lessons] of Teachers: teacher;
array[1..lessons] of Classes: class;
array[Teachers] of set of int: away;          % slots in which a teacher isn't there

array[1..lessons] of var 1..slots: slot;
array[1..lessons] of var 1..rooms: room;

constraint forall(t in Teachers)(alldifferent([slot[l] | l in 1..lessons where teacher[l] = t]));
constraint forall(c in Classes)(alldifferent([slot[l] | l in 1..lessons where class[l] = c]));
constraint alldifferent([rooms * slot[l] + room[l] | l in 1..lessons]);
constraint forall(l in 1..lessons)(not (slot[l] in away[teacher[l]]));

% The week ends as early as may be.
solve :: int_search(slot ++ room, first_fail, indomain_min) minimize max(slot);

output [ "lesson \(l): \(teacher[l]) teaches \(class[l]) in slot \(slot[l]), room \(room[l])\n" | l in 1..lessons ];
