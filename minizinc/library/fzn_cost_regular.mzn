% By a table of the automaton's steps with their costs at each place.
include "fzn_steps.mzn";

predicate fzn_cost_regular(
    array [int] of var int: x, int: Q, int: S, array [int, int] of int: d, int: q0, set of int: F, array [int, int] of int: c, var int: C
) =
    let {
        array [0..length(x)] of var 1..Q: state;
        array [index_set(x)] of var min(array1d(c))..max(array1d(c)): cost;
        array [int] of int: steps = [part | q in 1..Q, s in 1..S where d[q, s] > 0, part in [q, s, d[q, s], c[q, s]]];
    } in
    state[0] = q0 /\
    if length(x) > 0 then fzn_steps_with_costs(x, state, cost, steps) else true endif /\
    state[length(x)] in F /\
    C = sum(cost);
