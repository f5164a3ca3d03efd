% Tasks on a resource of one unit, each taking one. A task of length 0 stands anywhere.
include "fzn_cumulative.mzn";

predicate fzn_disjunctive(array [int] of var int: s, array [int] of var int: d) =
    fzn_cumulative(s, d, [1 | i in index_set(s)], 1);
