% Pair by pair, and along each axis as tasks.
include "fzn_boxes_on_axes.mzn";

predicate fzn_diffn(array [int] of var int: x, array [int] of var int: y, array [int] of var int: dx, array [int] of var int: dy) =
    forall (i, j in index_set(x) where i < j) (
        x[i] + dx[i] <= x[j] \/ y[i] + dy[i] <= y[j] \/ x[j] + dx[j] <= x[i] \/ y[j] + dy[j] <= y[i]
    ) /\
    fzn_boxes_on_axes(x, y, dx, dy);
