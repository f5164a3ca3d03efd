% Names in their order: a day before another, and the next one.
% asks: all
% known by: fzn-gecode 6.2
enum Day = {Mon, Tue, Wed, Thu, Fri};
var Day: meeting;
var Day: report;
var set of Day: free;
constraint meeting < report /\ report != enum_next(Day, Wed);
constraint card(free) = 2 /\ meeting in free /\ enum_next(Day, Mon) in free /\ not (report in free);
solve satisfy;
output ["\(meeting) \(report) \(free)"];
