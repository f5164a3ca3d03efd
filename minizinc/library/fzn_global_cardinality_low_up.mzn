% By counts of their own, between the bounds.
include "fzn_global_cardinality.mzn";

predicate fzn_global_cardinality_low_up(
    array [int] of var int: x, array [int] of int: cover, array [int] of int: lbound, array [int] of int: ubound
) =
    let {
        array [index_set(cover)] of var 0..length(x): counts;
    } in
    fzn_global_cardinality(x, cover, counts) /\
    forall (j in index_set(cover)) (counts[j] in lbound[j]..ubound[j]);
