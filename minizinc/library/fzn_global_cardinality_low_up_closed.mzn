% By counts of their own, between the bounds, which add up to the number of places.
include "fzn_global_cardinality_closed.mzn";

predicate fzn_global_cardinality_low_up_closed(
    array [int] of var int: x, array [int] of int: cover, array [int] of int: lbound, array [int] of int: ubound
) =
    let {
        array [index_set(cover)] of var 0..length(x): counts;
    } in
    fzn_global_cardinality_closed(x, cover, counts) /\
    forall (j in index_set(cover)) (counts[j] in lbound[j]..ubound[j]);
