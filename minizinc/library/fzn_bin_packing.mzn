% By the load of each bin; the loads' sum is stated, too.
include "fzn_bin_packing_load.mzn";

predicate fzn_bin_packing(int: c, array [int] of var int: bin, array [int] of int: w) =
    if length(bin) = 0 then
        true
    else
        let {
            array [lb_array(bin)..ub_array(bin)] of var 0..c: load;
        } in
        fzn_bin_packing_load(load, bin, w)
    endif;
