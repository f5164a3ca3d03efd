% A job shop: each job visits the machines in its own order, and no machine works on two jobs at once.
include "globals.mzn";

int: jobs;
int: machines;
array[1..jobs, 1..machines] of int: machine;  % which machine the k-th step of a job needs
array[1..jobs, 1..machines] of int: time;     % and for how long

int: most = sum(time);
array[1..jobs, 1..machines] of var 0..most: start;
var 0..most: finish;

constraint forall(j in 1..jobs, k in 1..machines - 1)(start[j, k] + time[j, k] <= start[j, k + 1]);
constraint forall(j in 1..jobs)(start[j, machines] + time[j, machines] <= finish);
constraint forall(m in 1..machines)(
  disjunctive([start[j, k] | j in 1..jobs, k in 1..machines where machine[j, k] = m],
              [time[j, k] | j in 1..jobs, k in 1..machines where machine[j, k] = m]));

solve :: int_search(array1d(start), smallest, indomain_min) minimize finish;

output ["finished at \(finish)\n"] ++ [ "job \(j) begins its steps at \([start[j, k] | k in 1..machines])\n" | j in 1..jobs ];
