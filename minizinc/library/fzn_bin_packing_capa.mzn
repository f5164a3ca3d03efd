% By the load of each bin; the loads' sum is stated, too.
include "fzn_bin_packing_load.mzn";

predicate fzn_bin_packing_capa(array [int] of int: c, array [int] of var int: bin, array [int] of int: w) =
    let {
        array [index_set(c)] of var 0..sum(w): load;
    } in
    forall (b in index_set(c)) (load[b] <= c[b]) /\
    fzn_bin_packing_load(load, bin, w);
