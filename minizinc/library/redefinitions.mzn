include "fzn_table_int.mzn";
include "nosets.mzn";  % variables that are sets become Booleans

% Whether a power surely lies within the limits of numbers, 2147483646 in size.
test fzn_fits_as_power(int: a, int: b) = abs(a) <= 1 \/ b * log2(abs(a)) < 31.0;

% The power of two numbers, where there is one: a negative power of 0 is none.
function int: fzn_power_of(int: a, int: b) =
    if b >= 0 then pow(a, b) elseif a = 1 then 1 elseif a = -1 then pow(a, -b) else 0 endif;

% A power of two variables, as a table of the numbers that are declared.
predicate int_pow(var int: x, var int: y, var int: z) =
    let {
        array [int] of int: powers = [
            part |
            a in dom(x), b in dom(y) where (b >= 0 /\ fzn_fits_as_power(a, b)) \/ (b < 0 /\ a != 0),
            part in [a, b, fzn_power_of(a, b)]
        ];
    } in
    fzn_table_int([x, y, z], array2d(1..length(powers) div 3, 1..3, powers));

% Words of a search that the solver doesn't know, as the nearest that it knows.
dom_w_deg = first_fail;
most_constrained = first_fail;
indomain_middle = indomain_median;
indomain_interval = indomain_split;
indomain_random = indomain_median;
indomain_split_random = indomain_split;
outdomain_min = indomain_max;
outdomain_max = indomain_min;
outdomain_median = indomain_max;
outdomain_random = indomain_max;
