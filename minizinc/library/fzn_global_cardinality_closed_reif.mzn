% By sums; the standard form is wrong where a value stands twice in the cover.
predicate fzn_global_cardinality_closed_reif(
    array [int] of var int: x, array [int] of int: cover, array [int] of var int: counts, var bool: b
) =
    b <-> (
        forall (i in index_set(x)) (x[i] in array2set(cover)) /\
        forall (j in index_set(cover)) (counts[j] = sum (i in index_set(x)) (bool2int(x[i] = cover[j])))
    );
