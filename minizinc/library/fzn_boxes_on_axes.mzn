include "fzn_cumulative.mzn";

% What follows where no two boxes overlap: no line across an axis meets more than the boxes reach on the other one.
predicate fzn_boxes_on_axes(array [int] of var int: x, array [int] of var int: y, array [int] of var int: dx, array [int] of var int: dy) =
    if length(x) > 2 /\ lb_array(dx) >= 0 /\ lb_array(dy) >= 0 then
        let {
            var int: width = max([x[i] + dx[i] | i in index_set(x)]) - min(x);
            var int: height = max([y[i] + dy[i] | i in index_set(y)]) - min(y);
        } in
        fzn_cumulative(x, dx, dy, height) /\ fzn_cumulative(y, dy, dx, width)
    else
        true
    endif;
