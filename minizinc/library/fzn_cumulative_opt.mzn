% A task that doesn't occur takes nothing.
include "fzn_cumulative.mzn";

predicate fzn_cumulative_opt(array [int] of var opt int: s, array [int] of var int: d, array [int] of var int: r, var int: b) =
    fzn_cumulative([deopt(s[i]) | i in index_set(s)], d, [r[i] * bool2int(occurs(s[i])) | i in index_set(s)], b);
