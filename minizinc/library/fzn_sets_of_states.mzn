% The sets of states that an automaton with several runs may be in, as states of one without.
int: fzn_most_sets = 200;

% All sets that are reached from those found, of which all before `next` are done; more than the most where there are more.
function array [int] of set of int: fzn_sets_of_states(
    array [int] of set of int: found, int: next, set of int: S, array [int, int] of set of int: d
) =
    if next > length(found) \/ length(found) > fzn_most_sets then
        found
    else
        let {
            array [int] of set of int: after = [array_union([d[q, s] | q in found[next]]) | s in S];
            array [int] of set of int: new = [
                after[k] |
                k in index_set(after)
                where after[k] != {} /\ forall (one in found) (one != after[k]) /\ forall (j in 1..k - 1) (after[j] != after[k])
            ];
        } in
        fzn_sets_of_states(found ++ new, next + 1, S, d)
    endif;

% The steps among these sets: 0 where no state is left.
function array [int, int] of int: fzn_steps_of_sets(array [int] of set of int: found, set of int: S, array [int, int] of set of int: d) =
    array2d(index_set(found), S, [
        let {
            set of int: after = array_union([d[q, s] | q in found[k]]);
        } in
        sum (i in index_set(found)) (if found[i] = after then i else 0 endif) |
        k in index_set(found), s in S
    ]);

% Those of the sets that hold one of these states.
function set of int: fzn_sets_with(array [int] of set of int: found, set of int: F) =
    {k | k in index_set(found) where found[k] intersect F != {}};
