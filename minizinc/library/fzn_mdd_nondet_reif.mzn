% By the nodes from which the rest leads to the end.
predicate fzn_mdd_nondet_reif(
    array [int] of var int: x, int: N, array [int] of int: level, int: E,
    array [int] of int: from, array [int] of set of int: label, array [int] of int: to, var bool: b
) =
    let {
        array [int] of var int: number = array1d(1..length(x), x);
        array [0..N] of var bool: leads;
    } in
    leads[0] /\
    forall (n in 1..N) (leads[n] <-> exists (e in 1..E where from[e] = n) (number[level[n]] in label[e] /\ leads[to[e]])) /\
    (b <-> leads[1]);
