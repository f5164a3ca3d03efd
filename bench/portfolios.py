"""The models of bench/portfolio, in MiniZinc without a search annotation: most of libraries.py, the others here."""
import random
import re

import libraries
from libraries import numbers, rows

# Each by itself: with all of globals.mzn the library of MiniZinc 2.6 for Gecode isn't read.
HEAD = "".join(
    f'include "{name}.mzn";\n'
    for name in "all_different bin_packing bin_packing_capa circuit cost_regular count cumulative diffn disjunctive disjunctive_opt cumulative_opt global_cardinality lex2 lex_chain_lesseq lex_less regular subcircuit table".split()
)


def quasigroup(n, holes, seed):
    """A Latin square of which so many places are open, each row and column shuffled."""
    source = random.Random(seed)
    across, down, names = (source.sample(range(n), n) for _ in range(3))
    square = [[names[(across[i] + down[j]) % n] + 1 for j in range(n)] for i in range(n)]
    for at in source.sample(range(n * n), holes):
        square[at // n][at % n] = 0
    given = [value for line in square for value in line]
    return f"""int: n = {n};
array [1..n, 1..n] of int: given = {rows(given, n)};
array [1..n, 1..n] of var 1..n: x;
constraint forall (i, j in 1..n where given[i, j] > 0) (x[i, j] = given[i, j]);
constraint forall (i in 1..n) (all_different(x[i, ..]) /\\ all_different(x[.., i]));
solve satisfy;
"""


def magic_square(n):
    total = n * (n * n + 1) // 2
    return f"""int: n = {n};
array [1..n, 1..n] of var 1..n * n: x;
constraint all_different(array1d(x));
constraint forall (i in 1..n) (sum(x[i, ..]) = {total} /\\ sum(x[.., i]) = {total});
constraint sum (i in 1..n) (x[i, i]) = {total} /\\ sum (i in 1..n) (x[i, n + 1 - i]) = {total};
constraint x[1, 1] < x[1, n] /\\ x[1, 1] < x[n, 1] /\\ x[1, 1] < x[n, n] /\\ x[1, n] < x[n, 1];
solve satisfy;
"""


def open_stacks(customers, products, seed):
    """An order of the products in which as few customers as possible wait between their first and their last."""
    source = random.Random(seed)
    wants = [int(source.random() < 0.35) for _ in range(customers * products)]
    return f"""int: c = {customers}; int: p = {products};
array [1..c, 1..p] of int: wants = {rows(wants, products)};
array [1..p] of var 1..p: at;
array [1..c] of var 1..p: first; array [1..c] of var 1..p: last;
constraint all_different(at);
constraint forall (i in 1..c where sum(wants[i, ..]) > 0) (first[i] = min([at[j] | j in 1..p where wants[i, j] = 1])
    /\\ last[i] = max([at[j] | j in 1..p where wants[i, j] = 1]));
constraint forall (i in 1..c where sum(wants[i, ..]) = 0) (first[i] = 1 /\\ last[i] = 1);
var 0..c: goal;
constraint forall (t in 1..p) (sum (i in 1..c) (bool2int(first[i] <= t /\\ t <= last[i])) <= goal);
solve minimize goal;
"""


def timetable(lessons, teachers, slots, seed):
    """Lessons of groups and teachers in slots, two rooms of one kind; late slots are wished away."""
    who, group = numbers(seed, lessons, 1, teachers), numbers(seed + 1, lessons, 1, teachers - 1)
    return f"""int: n = {lessons}; int: s = {slots};
array [1..n] of int: teacher = {who};
array [1..n] of int: group = {group};
array [1..n] of int: kind = {numbers(seed + 2, lessons, 1, 3)};
array [1..n] of var 1..s: slot;
constraint forall (t in 1..{teachers}) (all_different([slot[i] | i in 1..n where teacher[i] = t]));
constraint forall (g in 1..{teachers - 1}) (all_different([slot[i] | i in 1..n where group[i] = g]));
constraint forall (k in 1..3, t in 1..s) (count([slot[i] | i in 1..n where kind[i] = k], t) <= 2);
var 0..n * s: goal = sum (i in 1..n) (slot[i] * (1 + i mod 3));
solve minimize goal;
"""


def configuration(parts, seed):
    """Modules of a rack: which kind stands in each place, by tables of what fits together, at the least cost."""
    source = random.Random(seed)
    kinds = 5
    fit = [pair for a in range(1, kinds + 1) for b in range(1, kinds + 1) if source.random() < 0.6 for pair in (a, b)] or [1, 1]
    power, cost, need = numbers(seed + 1, kinds, 1, 9), numbers(seed + 2, kinds, 3, 40), numbers(seed + 3, parts, 1, 4)
    return f"""int: n = {parts};
array [1..{kinds}] of int: power = {power}; array [1..{kinds}] of int: cost = {cost};
array [1..n] of int: need = {need};
array [1..{len(fit) // 2}, 1..2] of int: fit = {rows(fit, 2)};
array [1..n] of var 1..{kinds}: x;
constraint forall (i in 1..n - 1) (table([x[i], x[i + 1]], fit));
constraint sum (i in 1..n) (power[x[i]]) >= 5 * n;
constraint forall (i in 1..n where need[i] > 2) (power[x[i]] >= need[i]);
constraint forall (k in 1..{kinds}) (count(x, k) <= n div 3 + 1);
var 0..40 * n: goal = sum (i in 1..n) (cost[x[i]]);
solve minimize goal;
"""


def tour(towns, seed):
    way = numbers(seed, towns * towns, 5, 60)
    return f"""int: n = {towns};
array [1..n, 1..n] of int: way = {rows(way, towns)};
array [1..n] of var 1..n: next;
constraint circuit(next);
var 0..60 * n: goal = sum (i in 1..n) (way[i, next[i]]);
solve minimize goal;
"""


def cars(count, kinds, seed):
    """Cars of kinds with options, of which at most so many of so many neighbours may have one; a sequence exists."""
    source = random.Random(seed)
    options = [(1, 2), (2, 3), (1, 3)]
    has = [[int(source.random() < 0.4) for _ in options] for _ in range(kinds)]
    found, tries = [], 0
    while len(found) < count and tries < 100000:
        tries += 1
        kind = source.randrange(kinds)
        line = found + [kind]
        if all(sum(has[k][o] for k in line[-width:]) <= most for o, (most, width) in enumerate(options)):
            found = line
    made = [found.count(kind) for kind in range(kinds)]
    lines = "".join(
        f"constraint forall (i in 1..n - {width - 1}) (sum (j in i..i + {width - 1}) (has[x[j], {o + 1}]) <= {most});\n" for o, (most, width) in enumerate(options)
    )
    return f"""int: n = {len(found)};
array [1..{kinds}, 1..{len(options)}] of int: has = {rows([one for line in has for one in line], len(options))};
array [1..n] of var 1..{kinds}: x;
constraint global_cardinality(x, 1..{kinds}, {made});
{lines}solve satisfy;
"""


def free(model):
    """A model without its search annotation."""
    return HEAD + re.sub(r"solve\s*::.*?\b(satisfy|minimize|maximize)\b", r"solve \1", model, flags=re.S)


MODELS = {
    "job_shop_8_6": free(libraries.job_shop(8, 6, 5)),
    "flexible_shop_11_4": free(libraries.flexible_shop(11, 4, 14)),
    "teams_18": free(libraries.teams(18, 17)),
    "teams_20": free(libraries.teams(20, 18)),
    "strip_12": free(libraries.strip(12, 12, 21)),
    "strip_13": free(libraries.strip(13, 12, 22)),
    "tour_18": free(tour(18, 63)),
    "prizes_20": free(libraries.prizes(20, 25)),
    "roster_6_6": free(libraries.roster(6, 6, 28)),
    "shifts_5_5": free(libraries.shifts(5, 5, 29)),
    "quasigroup_20": free(quasigroup(20, 170, 62)),
    "magic_square_5": free(magic_square(5)),
    "configuration_33": free(configuration(33, 63)),
    "open_stacks_12": free(open_stacks(12, 12, 64)),
    "timetable_16": free(timetable(16, 4, 8, 66)),
    "cars_60": free(cars(60, 7, 67)),
    "accepted_16": free(libraries.accepted(16, 76)),
    "costs_by_bin_24": free(libraries.costs_by_bin(24, 6, 49)),
    "chosen_tasks_16": free(libraries.chosen_tasks(16, 77)),
    "design_16_20": free(libraries.design(16, 20, 5, 4, 1)),
}
