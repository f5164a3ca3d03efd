% By the steps of an automaton that refuses nothing on its way.
include "fzn_regular_set_reif.mzn";

predicate fzn_regular_reif(
    array [int] of var int: x, int: Q, int: S, array [int, int] of int: d, int: q0, set of int: F, var bool: b
) =
    fzn_regular_set_reif(x, Q, 1..S, d, q0, F, b);
