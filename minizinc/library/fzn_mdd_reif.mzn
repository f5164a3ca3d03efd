% By a table of the diagram's edges at each level, and of a node -1 where no edge goes on.
include "fzn_table_int.mzn";

predicate fzn_mdd_reif(
    array [int] of var int: x, int: N, array [int] of int: level, int: E,
    array [int] of int: from, array [int] of set of int: label, array [int] of int: to, var bool: b
) =
    let {
        array [int] of var int: number = array1d(1..length(x), x);
        array [1..length(x) + 1] of var -1..N: node;
    } in
    node[1] = 1 /\
    forall (i in 1..length(x)) (
        let {
            array [int] of int: edges = [
                part | e in 1..E where level[from[e]] = i, v in label[e] intersect dom(number[i]), part in [from[e], v, to[e]]
            ] ++ [
                part |
                n in [-1] ++ [n | n in 1..N where level[n] = i],
                v in dom(number[i]) diff array_union([label[e] | e in 1..E where from[e] = n]),
                part in [n, v, -1]
            ];
        } in
        fzn_table_int([node[i], number[i], node[i + 1]], array2d(1..length(edges) div 3, 1..3, edges))
    ) /\
    (b <-> node[length(x) + 1] = 0);
