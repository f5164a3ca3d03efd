% As disjunctive; and a task of length 0 stands inside no other, which is said of pairs where there may be one.
include "fzn_cumulative.mzn";

predicate fzn_disjunctive_strict(array [int] of var int: s, array [int] of var int: d) =
    fzn_cumulative(s, d, [1 | i in index_set(s)], 1) /\
    forall (i, j in index_set(d) where i < j /\ (lb(d[i]) <= 0 \/ lb(d[j]) <= 0)) (
        s[i] + d[i] <= s[j] \/ s[j] + d[j] <= s[i]
    );
