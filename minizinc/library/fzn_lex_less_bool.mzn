% Each Boolean says exactly whether the rest of x comes before the rest of y, so that none is left free.
predicate fzn_lex_less_bool(array [int] of var bool: x :: promise_ctx_antitone, array [int] of var bool: y :: promise_ctx_monotone) =
    let {
        int: first_x = min(index_set(x));
        int: first_y = min(index_set(y));
        int: n = min(length(x), length(y));
        array [0..n] of var bool: before;
    } in
    before[0] /\
    forall (i in 0..n - 1) (
        let {
            var bool: a = x[first_x + i];
            var bool: b = y[first_y + i];
        } in
        (before[i] /\ a -> b) /\
        (before[i] /\ a -> before[i + 1]) /\
        (before[i] -> b \/ before[i + 1]) /\
        (b -> a \/ before[i]) /\
        (before[i + 1] /\ b -> before[i]) /\
        (before[i + 1] -> a \/ before[i])
    ) /\
    before[n] = (length(x) < length(y));
