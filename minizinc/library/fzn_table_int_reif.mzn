% Of any number of terms. Where they have few rows of numbers in all, by a table of these; else by which row it is, if any.
include "fzn_table_int.mzn";

predicate fzn_table_int_reif(array [int] of var int: x, array [int, int] of int: t, var bool: b) =
    let {
        array [int] of var int: term = array1d(1..length(x), x);
        array [int, int] of int: row = array2d(1..card(index_set_1of2(t)), 1..length(x), array1d(t));
        set of int: rows = {r | r in index_set_1of2(row) where forall (i in 1..length(x)) (row[r, i] in dom(term[i]))};
    } in
    if rows = {} then
        not b
    elseif is_fixed(b) /\ fix(b) then
        fzn_table_int(x, t)
    elseif length(x) = 1 then
        b <-> term[1] in {row[r, 1] | r in rows}
    elseif sum (i in 1..length(x)) (log2(card(dom(term[i])))) <= 10.0 then
        fzn_table_of_truth(term, row, rows, b)
    elseif is_fixed(b) then
        forall (r in rows) (exists (i in 1..length(x)) (term[i] != row[r, i]))
    else
        let {
            int: first = min(rows);
            array [1..length(x)] of var int: copy =
                [let {var {row[r, i] | r in rows}: number} in number | i in 1..length(x)];
        } in
        fzn_table_int(copy, array2d(1..card(rows), 1..length(x), [row[r, i] | r in rows, i in 1..length(x)])) /\
        forall (i in 1..length(x)) ((b -> copy[i] = term[i]) /\ (b \/ copy[i] = row[first, i])) /\
        (b <-> exists (r in rows) (forall (i in 1..length(x)) (term[i] = row[r, i])))
    endif;

% All rows of numbers that the terms may have, each with whether it is one of the table.
predicate fzn_table_of_truth(array [int] of var int: x, array [int, int] of int: row, set of int: rows, var bool: b) =
    let {
        int: n = length(x);
        array [int] of int: number = [v | i in 1..n, v in dom(x[i])];
        array [1..n] of int: size = [card(dom(x[i])) | i in 1..n];
        array [1..n] of int: before = [sum (j in 1..i - 1) (size[j]) | i in 1..n];
        array [1..n] of int: weight = [product (j in i + 1..n) (size[j]) | i in 1..n];
        set of int: inside = {
            sum (i in 1..n) (weight[i] * sum (v in dom(x[i])) (bool2int(v < row[r, i]))) | r in rows
        };
        int: count = product(size);
        array [int] of int: parts = [
            part |
            k in 0..count - 1,
            part in [number[before[i] + k div weight[i] mod size[i] + 1] | i in 1..n] ++ [bool2int(k in inside)]
        ];
    } in
    fzn_table_int(x ++ [bool2int(b)], array2d(1..count, 1..n + 1, parts));
