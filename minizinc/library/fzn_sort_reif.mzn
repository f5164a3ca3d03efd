% By the sorted row, which is there in any case.
include "fzn_sort.mzn";

predicate fzn_sort_reif(array [int] of var int: x, array [int] of var int: y, var bool: b) =
    if length(x) = 0 then
        b
    else
        let {
            array [1..length(x)] of var lb_array(x)..ub_array(x): sorted;
            array [int] of var int: given = array1d(1..length(y), y);
        } in
        fzn_sort(x, sorted) /\
        (b <-> forall (i in 1..length(y)) (sorted[i] = given[i]))
    endif;
