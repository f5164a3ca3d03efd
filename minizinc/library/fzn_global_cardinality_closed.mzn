% Native; and that the counts add up to the number of places, which follows, narrows more.
include "fzn_global_cardinality.mzn";

predicate fzn_global_cardinality_closed(array [int] of var int: x, array [int] of int: cover, array [int] of var int: counts) =
    forall (i in index_set(x)) (x[i] in array2set(cover)) /\
    fzn_global_cardinality(x, cover, counts) /\
    if card(array2set(cover)) = length(cover) then sum(counts) = length(x) else true endif;
