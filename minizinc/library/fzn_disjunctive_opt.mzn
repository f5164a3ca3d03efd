% A task that doesn't occur takes nothing. The pairs say when a task can't occur, which the resource alone doesn't see.
include "fzn_cumulative_opt.mzn";

predicate fzn_disjunctive_opt(array [int] of var opt int: s, array [int] of var int: d) =
    fzn_cumulative_opt(s, d, array1d(index_set(s), [1 | i in index_set(s)]), 1) /\
    forall (i, j in index_set(d) where i < j) (
        absent(s[i]) \/ absent(s[j]) \/ d[i] = 0 \/ d[j] = 0 \/
        deopt(s[i]) + d[i] <= deopt(s[j]) \/ deopt(s[j]) + d[j] <= deopt(s[i])
    );
