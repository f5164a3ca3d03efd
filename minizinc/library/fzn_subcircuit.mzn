% By places: those of the way from its first town on, then the towns outside in their order, so that nothing is left free.
include "fzn_all_different_int.mzn";

predicate fzn_subcircuit(array [int] of var int: x) =
    if length(x) = 0 then
        true
    else
        let {
            set of int: towns = index_set(x);
            int: none = max(towns) + 1;
            array [towns] of var bool: visited = array1d(towns, [x[i] != i | i in towns]);
            var min(towns)..none: first = min([if visited[i] then i else none endif | i in towns]);
            array [towns] of var 1..length(x): place;
            var 0..length(x): count = sum(visited);
        } in
        fzn_all_different_int(x) /\
        fzn_all_different_int(place) /\
        forall (i in towns) (
            x[i] in towns /\
            (place[i] <= count) = visited[i] /\
            (first = i -> place[i] = 1) /\
            (visited[i] /\ x[i] != first -> place[x[i]] = place[i] + 1) /\
            (visited[i] /\ x[i] = first -> place[i] = count)
        ) /\
        forall (i, j in towns where i < j) (visited[i] \/ visited[j] \/ place[i] < place[j])
    endif;
