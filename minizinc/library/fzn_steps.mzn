% What the globals over automata and diagrams have in common.
include "fzn_table_int.mzn";

% Each number takes a state to the next one, by a row (state, number, next).
predicate fzn_steps(array [int] of var int: x, array [int] of var int: state, array [int] of int: steps) =
    let {
        array [int, int] of int: rows = array2d(1..length(steps) div 3, 1..3, steps);
        int: before = min(index_set(x)) - min(index_set(state));
    } in
    forall (i in index_set(x)) (fzn_table_int([state[i - before], x[i], state[i - before + 1]], rows));

% The same at a cost, by a row (state, number, next, cost).
predicate fzn_steps_with_costs(
    array [int] of var int: x, array [int] of var int: state, array [int] of var int: cost, array [int] of int: steps
) =
    let {
        array [int, int] of int: rows = array2d(1..length(steps) div 4, 1..4, steps);
        int: before = min(index_set(x)) - min(index_set(state));
    } in
    forall (i in index_set(x)) (fzn_table_int([state[i - before], x[i], state[i - before + 1], cost[i]], rows));

% Numbers of which those outside a set are one: the least of the set less one.
function array [int] of var int: fzn_letters(array [int] of var int: x, set of int: S) =
    array1d(index_set(x), [
        if dom(x[i]) subset S then x[i] else if x[i] in S then x[i] else min(S) - 1 endif endif | i in index_set(x)
    ]);

% The steps of an automaton with a state 0 for what it refuses, and no number refused but by going there.
function array [int] of int: fzn_total_steps(int: Q, set of int: S, array [int, int] of int: d) =
    [part | q in 0..Q, s in S union {min(S) - 1}, part in [q, s, if q > 0 /\ s in S then d[q, s] else 0 endif]];
