% As an automaton whose states are sets of states; where these are too many, by a table of its steps at each place.
include "fzn_sets_of_states.mzn";
include "fzn_regular_set.mzn";

predicate fzn_regular_nfa(
    array [int] of var int: x, int: Q, set of int: S, array [int, int] of set of int: d, int: q0, set of int: F
) =
    let {
        array [int] of set of int: found = fzn_sets_of_states([{q0}], 1, S, d);
    } in
    if length(found) <= fzn_most_sets then
        fzn_regular_set(x, length(found), S, fzn_steps_of_sets(found, S, d), 1, fzn_sets_with(found, F))
    else
        let {
            array [0..length(x)] of var 1..Q: state;
            array [int] of int: steps = [part | q in 1..Q, s in S, t in d[q, s], part in [q, s, t]];
        } in
        state[0] = q0 /\
        if length(x) > 0 then fzn_steps(x, state, steps) else true endif /\
        state[length(x)] in F
    endif;
