% By a table of the diagram's edges with their costs at each level.
include "fzn_table_int.mzn";

predicate fzn_cost_mdd(
    array [int] of var int: x, int: N, array [int] of int: level, int: E, array [int] of int: from,
    array [int] of set of int: label, array [int] of int: cost, array [int] of int: to, var int: totalcost
) =
    let {
        array [int] of var int: number = array1d(1..length(x), x);
        array [1..length(x) + 1] of var 0..N: node;
        array [1..length(x)] of var min(cost)..max(cost): paid;
    } in
    node[1] = 1 /\
    node[length(x) + 1] = 0 /\
    forall (i in 1..length(x)) (
        let {
            array [int] of int: edges = [
                part |
                e in 1..E where level[from[e]] = i, v in label[e] intersect dom(number[i]), part in [from[e], v, to[e], cost[e]]
            ];
        } in
        fzn_table_int([node[i], number[i], node[i + 1], paid[i]], array2d(1..length(edges) div 4, 1..4, edges))
    ) /\
    totalcost = sum(paid);
