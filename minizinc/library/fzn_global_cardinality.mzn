% Native: how many places have each value of the cover.
predicate fzn_global_cardinality(array [int] of var int: x, array [int] of int: cover, array [int] of var int: counts);
