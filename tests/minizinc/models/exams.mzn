% Exams in the fewest days; who takes which is data, as sets.
% asks: best
% known by: fzn-gecode 6.2
enum Exam = {art, biology, chemistry, drama, economics};
int: students = 5;
array [1..students] of set of Exam: takes;
array [Exam] of var 1..5: day;
constraint forall (s in 1..students, e, f in takes[s] where e < f) (day[e] != day[f]);
var int: days = max(day);
solve minimize days;
output ["\(days) days"];
