% As numbers.
include "fzn_table_int_reif.mzn";

predicate fzn_table_bool_reif(array [int] of var bool: x, array [int, int] of bool: t, var bool: b) =
    fzn_table_int_reif(
        [bool2int(x[i]) | i in index_set(x)],
        array2d(1..card(index_set_1of2(t)), 1..length(x), [bool2int(one) | one in array1d(t)]),
        b
    );
