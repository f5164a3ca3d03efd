% As an automaton whose states are sets of states; where these are too many, by the states that it may be in at each place.
include "fzn_sets_of_states.mzn";
include "fzn_regular_set_reif.mzn";

predicate fzn_regular_nfa_reif(
    array [int] of var int: x, int: Q, set of int: S, array [int, int] of set of int: d, int: q0, set of int: F, var bool: b
) =
    let {
        array [int] of set of int: found = fzn_sets_of_states([{q0}], 1, S, d);
    } in
    if length(found) <= fzn_most_sets then
        fzn_regular_set_reif(x, length(found), S, fzn_steps_of_sets(found, S, d), 1, fzn_sets_with(found, F), b)
    else
        let {
            int: n = length(x);
            array [int] of var int: letter = array1d(1..n, x);
            array [0..n, 1..Q] of var bool: may;
        } in
        forall (q in 1..Q) (may[0, q] <-> q = q0) /\
        forall (i in 1..n, t in 1..Q) (
            may[i, t] <-> exists (s in S) (letter[i] = s /\ exists (q in 1..Q where t in d[q, s]) (may[i - 1, q]))
        ) /\
        (b <-> exists (q in F) (may[n, q]))
    endif;
