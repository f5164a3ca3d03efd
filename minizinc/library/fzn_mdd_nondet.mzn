% By a table of the diagram's edges at each level; of several ways the one that goes to the least node from which the rest leads on.
include "fzn_table_int.mzn";

predicate fzn_mdd_nondet(
    array [int] of var int: x, int: N, array [int] of int: level, int: E,
    array [int] of int: from, array [int] of set of int: label, array [int] of int: to
) =
    let {
        array [int] of var int: number = array1d(1..length(x), x);
        array [1..length(x) + 1] of var 0..N: node;
        array [0..N] of var bool: leads;
    } in
    node[1] = 1 /\
    node[length(x) + 1] = 0 /\
    forall (i in 1..length(x)) (
        let {
            array [int] of int: edges = [
                part | e in 1..E where level[from[e]] = i, v in label[e] intersect dom(number[i]), part in [from[e], v, to[e]]
            ];
        } in
        fzn_table_int([node[i], number[i], node[i + 1]], array2d(1..length(edges) div 3, 1..3, edges))
    ) /\
    leads[0] /\
    forall (n in 1..N) (leads[n] <-> exists (e in 1..E where from[e] = n) (number[level[n]] in label[e] /\ leads[to[e]])) /\
    forall (e in 1..E) (
        (node[level[from[e]]] = from[e] /\ number[level[from[e]]] in label[e] /\ leads[to[e]]) ->
        node[level[from[e]] + 1] <= to[e]
    );
