% By the place that each element goes to; equal ones keep their order, so that there is one way. Sum and ends narrow more.
include "fzn_all_different_int.mzn";

predicate fzn_sort(array [int] of var int: x, array [int] of var int: y) =
    if length(x) = 0 then
        true
    else
        let {
            int: first = min(index_set(y));
            int: last = max(index_set(y));
            array [index_set(x)] of var first..last: place;
        } in
        fzn_all_different_int(place) /\
        forall (i in index_set(x)) (y[place[i]] = x[i]) /\
        forall (i in first..last - 1) (y[i] <= y[i + 1]) /\
        forall (i, j in index_set(x) where i < j) (x[i] = x[j] -> place[i] < place[j]) /\
        sum(x) = sum(y) /\
        y[first] = min(x) /\
        y[last] = max(x)
    endif;
