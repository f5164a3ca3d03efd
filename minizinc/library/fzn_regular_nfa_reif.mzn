% By the states that the automaton may be in at each place.
include "fzn_regular_nfa_set_reif.mzn";

predicate fzn_regular_nfa_reif(
    array [int] of var int: x, int: Q, int: S, array [int, int] of set of int: d, int: q0, set of int: F, var bool: b
) =
    fzn_regular_nfa_reif(x, Q, 1..S, d, q0, F, b);
