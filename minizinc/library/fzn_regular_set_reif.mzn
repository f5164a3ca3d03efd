% By the steps of an automaton that refuses nothing on its way.
include "fzn_steps.mzn";

predicate fzn_regular_set_reif(
    array [int] of var int: x, int: Q, set of int: S, array [int, int] of int: d, int: q0, set of int: F, var bool: b
) =
    let {
        array [0..length(x)] of var 0..Q: state;
    } in
    state[0] = q0 /\
    if length(x) > 0 then fzn_steps(fzn_letters(x, S), state, fzn_total_steps(Q, S, d)) else true endif /\
    (b <-> state[length(x)] in F);

predicate fzn_regular_reif(
    array [int] of var int: x, int: Q, set of int: S, array [int, int] of int: d, int: q0, set of int: F, var bool: b
) =
    fzn_regular_set_reif(x, Q, S, d, q0, F, b);
