% Native where the numbers are counted from 1; others by a table of the automaton's steps at each place.
include "fzn_regular.mzn";
include "fzn_steps.mzn";

predicate fzn_regular_set(array [int] of var int: x, int: Q, set of int: S, array [int, int] of int: d, int: q0, set of int: F) =
    if S != {} /\ S = 1..max(S) then
        fzn_regular(x, Q, max(S), d, q0, F)
    else
        let {
            array [0..length(x)] of var 1..Q: state;
            array [int] of int: steps = [part | q in 1..Q, s in S where d[q, s] > 0, part in [q, s, d[q, s]]];
        } in
        state[0] = q0 /\
        if length(x) > 0 then fzn_steps(x, state, steps) else true endif /\
        state[length(x)] in F
    endif;

predicate fzn_regular(array [int] of var int: x, int: Q, set of int: S, array [int, int] of int: d, int: q0, set of int: F) =
    fzn_regular_set(x, Q, S, d, q0, F);
