% By the steps of an automaton that refuses nothing on its way; there its steps cost nothing.
include "fzn_steps.mzn";

predicate fzn_cost_regular_reif(
    array [int] of var int: x, int: Q, int: S, array [int, int] of int: d, int: q0, set of int: F, array [int, int] of int: c, var int: C,
    var bool: b
) =
    let {
        array [0..length(x)] of var 0..Q: state;
        array [index_set(x)] of var min(0, min(array1d(c)))..max(0, max(array1d(c))): cost;
        array [int] of int: steps = [
            part |
            q in 0..Q, s in 0..S, next = if q > 0 /\ s > 0 then d[q, s] else 0 endif,
            part in [q, s, next, if next > 0 then c[q, s] else 0 endif]
        ];
    } in
    state[0] = q0 /\
    if length(x) > 0 then fzn_steps_with_costs(fzn_letters(x, 1..S), state, cost, steps) else true endif /\
    (b <-> (state[length(x)] in F /\ C = sum(cost)));
