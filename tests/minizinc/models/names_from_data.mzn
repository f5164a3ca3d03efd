% Workers and jobs whose names are data; the cheapest way to give each job a worker.
% asks: best
% known by: fzn-gecode 6.2
include "globals.mzn";
enum Worker;
enum Job;
array [Worker, Job] of int: cost;
array [Job] of var Worker: who;
var int: total = sum (j in Job) (cost[who[j], j]);
constraint all_different(who);
solve :: int_search(who, most_constrained, indomain_random) minimize total;
output ["\(j) by \(fix(total))\n" | j in Job where j = min(Job)];
