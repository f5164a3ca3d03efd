% Each Boolean says exactly whether the rest of x comes before the rest of y, so that none is left free.
predicate fzn_lex_lesseq_int(array [int] of var int: x :: promise_ctx_antitone, array [int] of var int: y :: promise_ctx_monotone) =
    let {
        int: first_x = min(index_set(x));
        int: first_y = min(index_set(y));
        int: n = min(length(x), length(y));
        array [0..n] of var bool: before;
    } in
    before[0] /\
    forall (i in 0..n - 1) (
        let {
            var bool: less = x[first_x + i] < y[first_y + i];
            var bool: at_most = x[first_x + i] <= y[first_y + i];
        } in
        (before[i] -> at_most) /\
        (before[i] -> less \/ before[i + 1]) /\
        (less -> before[i]) /\
        (at_most /\ before[i + 1] -> before[i])
    ) /\
    before[n] = (length(x) <= length(y));
