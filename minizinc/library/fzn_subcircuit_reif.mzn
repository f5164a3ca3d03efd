% By a walk from the first town that is left: it comes back after as many steps as there are towns on the way.
include "fzn_all_different_int_reif.mzn";

predicate fzn_subcircuit_reif(array [int] of var int: x, var bool: b) =
    if length(x) = 0 then
        b
    else
        let {
            set of int: towns = index_set(x);
            array [towns] of var towns: next =
                array1d(towns, [if x[i] in towns then x[i] else i endif | i in towns]);
            var 0..length(x): visited = sum(i in towns) (bool2int(next[i] != i));
            var towns: first = min([if next[i] != i then i else max(towns) endif | i in towns]);
            array [0..length(x)] of var towns: walk;
            var bool: different;
        } in
        walk[0] = first /\
        forall (k in 1..length(x)) (walk[k] = next[walk[k - 1]]) /\
        fzn_all_different_int_reif(x, different) /\
        (b <-> (
            different /\
            forall (i in towns) (x[i] in towns) /\
            forall (k in 1..length(x)) (k < visited -> walk[k] != first)
        ))
    endif;
