% Native: the next states one row after another.
predicate fzn_regular(array [int] of var int: x, int: Q, int: S, array [int, int] of int: d, int: q0, set of int: F);
