% By a walk from the first town: it comes back after all other towns.
include "fzn_all_different_int_reif.mzn";

predicate fzn_circuit_reif(array [int] of var int: x, var bool: b) =
    if length(x) = 0 then
        b
    else
        let {
            set of int: towns = index_set(x);
            array [towns] of var towns: next =
                array1d(towns, [if x[i] in towns then x[i] else i endif | i in towns]);
            array [0..length(x) - 1] of var towns: walk;
            var bool: different;
        } in
        walk[0] = min(towns) /\
        forall (k in 1..length(x) - 1) (walk[k] = next[walk[k - 1]]) /\
        fzn_all_different_int_reif(x, different) /\
        (b <-> (
            different /\
            forall (i in towns) (x[i] in towns /\ x[i] != i) /\
            forall (k in 1..length(x) - 1) (walk[k] != min(towns))
        ))
    endif;
