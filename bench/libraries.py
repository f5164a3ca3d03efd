"""The models of bench/library: of each redefinition two families at two sizes, in MiniZinc, with data from a generator of numbers."""
import random

HEAD = 'include "globals.mzn";\n'


def numbers(seed, count, low, high):
    """So many numbers within a range, the same for a seed each time."""
    source = random.Random(seed)
    return [source.randint(low, high) for _ in range(count)]


def rows(values, width):
    """A list as the text of an array of two dimensions."""
    return "[|" + "|".join(", ".join(map(str, values[at : at + width])) for at in range(0, len(values), width)) + "|]"


def job_shop(jobs, machines, seed):
    source = random.Random(seed)
    order = [machine for _ in range(jobs) for machine in source.sample(range(1, machines + 1), machines)]
    length = numbers(seed, jobs * machines, 2, 20)
    return f"""int: n = {jobs}; int: m = {machines};
array [1..n, 1..m] of int: machine = {rows(order, machines)};
array [1..n, 1..m] of int: length = {rows(length, machines)};
array [1..n, 1..m] of var 0..{sum(length)}: start;
var 0..{sum(length)}: goal;
constraint forall (j in 1..n, k in 1..m - 1) (start[j, k] + length[j, k] <= start[j, k + 1]);
constraint forall (j in 1..n) (start[j, m] + length[j, m] <= goal);
constraint forall (r in 1..m) (disjunctive([start[j, k] | j in 1..n, k in 1..m where machine[j, k] = r],
    [length[j, k] | j in 1..n, k in 1..m where machine[j, k] = r]));
solve :: int_search(array1d(start) ++ [goal], smallest, indomain_min) minimize goal;
"""


def late_jobs(jobs, seed):
    length = numbers(seed, jobs, 0, 9)
    due = numbers(seed + 1, jobs, sum(length) // 4, sum(length))
    return f"""array [1..{jobs}] of int: length = {length};
array [1..{jobs}] of int: due = {due};
array [1..{jobs}] of var 0..{sum(length)}: start;
constraint disjunctive(start, length) /\\ forall (j in 1..{jobs}) (start[j] + length[j] <= {sum(length)});
var 0..{sum(length) * jobs}: goal;
constraint goal = sum (j in 1..{jobs}) (max(0, start[j] + length[j] - due[j]));
solve :: int_search(start, smallest, indomain_min) minimize goal;
"""


def strict_tools(jobs, seed):
    length = numbers(seed, jobs, 0, 6)
    return f"""array [1..{jobs}] of var 0..{sum(length)}: start;
array [1..{jobs}] of int: length = {length};
constraint disjunctive_strict(start, length);
var 0..{sum(length) * jobs}: goal = sum (j in 1..{jobs}) ((1 + j mod 3) * start[j]);
solve :: int_search(start, smallest, indomain_min) minimize goal;
"""


def flexible_shop(jobs, machines, seed):
    length = numbers(seed, jobs * machines, 3, 15)
    top = sum(max(length[at : at + machines]) for at in range(0, len(length), machines))
    return f"""array [1..{jobs}, 1..{machines}] of int: length = {rows(length, machines)};
array [1..{jobs}, 1..{machines}] of var opt 0..{top}: start;
array [1..{jobs}] of var 1..{machines}: machine;
var 0..{top}: goal;
constraint forall (j in 1..{jobs}, m in 1..{machines}) (occurs(start[j, m]) <-> machine[j] = m);
constraint forall (j in 1..{jobs}, m in 1..{machines}) (occurs(start[j, m]) -> deopt(start[j, m]) + length[j, m] <= goal);
constraint forall (m in 1..{machines}) (disjunctive(start[.., m], length[.., m]));
solve :: seq_search([int_search(machine, input_order, indomain_min), int_search([deopt(start[j, m]) | j in 1..{jobs}, m in 1..{machines}],
    smallest, indomain_min), int_search([goal], input_order, indomain_min)]) minimize goal;
"""


def accepted(jobs, seed):
    length, worth = numbers(seed, jobs, 2, 9), numbers(seed + 1, jobs, 1, 20)
    end = sum(length) // 2
    return f"""array [1..{jobs}] of int: length = {length};
array [1..{jobs}] of int: worth = {worth};
array [1..{jobs}] of int: from = {numbers(seed + 2, jobs, 0, end // 2)};
array [1..{jobs}] of var opt 0..{end}: start;
constraint disjunctive(start, length);
constraint forall (j in 1..{jobs}) (occurs(start[j]) -> deopt(start[j]) >= from[j] /\\ deopt(start[j]) + length[j] <= {end});
var 0..{sum(worth)}: goal = sum (j in 1..{jobs}) (worth[j] * bool2int(occurs(start[j])));
solve :: seq_search([bool_search([occurs(start[j]) | j in 1..{jobs}], input_order, indomain_max),
    int_search([deopt(start[j]) | j in 1..{jobs}], smallest, indomain_min)]) maximize goal;
"""


def teams(tasks, seed, modes=2):
    length, need = numbers(seed, tasks, 2, 7), numbers(seed + 1, tasks, 1, 3)
    top = sum(length)
    return f"""array [1..{tasks}] of int: length = {length};
array [1..{tasks}] of int: need = {need};
array [1..{tasks}, 1..{modes}] of var opt 0..{top}: start;
array [1..{tasks}] of var 1..{modes}: team;
array [1..{tasks}] of var 0..{top}: begins;
var 0..{top}: goal;
constraint forall (t in 1..{tasks}, m in 1..{modes}) ((occurs(start[t, m]) <-> team[t] = m)
    /\\ (occurs(start[t, m]) -> deopt(start[t, m]) = begins[t]) /\\ begins[t] + length[t] <= goal);
constraint forall (t in 1..{tasks} - 3) (begins[t] + length[t] <= begins[t + 3]);
constraint forall (m in 1..{modes}) (cumulative(start[.., m], length, need, 2 + m));
solve :: int_search([if i mod 2 = 1 then team[(i + 1) div 2] else begins[i div 2] endif | i in 1..2 * {tasks}] ++ [goal], input_order,
    indomain_min) minimize goal;
"""


def chosen_tasks(tasks, seed):
    length, need, worth = numbers(seed, tasks, 2, 7), numbers(seed + 1, tasks, 1, 3), numbers(seed + 2, tasks, 1, 20)
    end = sum(length) // 3
    return f"""array [1..{tasks}] of int: length = {length};
array [1..{tasks}] of int: need = {need};
array [1..{tasks}] of int: worth = {worth};
array [1..{tasks}] of var opt 0..{end}: start;
constraint cumulative(start, length, need, 4);
constraint forall (t in 1..{tasks}) (occurs(start[t]) -> deopt(start[t]) + length[t] <= {end});
var 0..{sum(worth)}: goal = sum (t in 1..{tasks}) (worth[t] * bool2int(occurs(start[t])));
solve :: seq_search([bool_search([occurs(start[t]) | t in 1..{tasks}], input_order, indomain_max),
    int_search([deopt(start[t]) | t in 1..{tasks}], smallest, indomain_min)]) maximize goal;
"""


def strip(boxes, width, seed, zero=False):
    wide, high = numbers(seed, boxes, 2, width // 2), numbers(seed + 1, boxes, 2, width // 2)
    if zero:
        wide[0] = 0
    name = "diffn_nonstrict" if zero else "diffn"
    return f"""array [1..{boxes}] of int: w = {wide};
array [1..{boxes}] of int: h = {high};
array [1..{boxes}] of var 0..{width}: x;
array [1..{boxes}] of var 0..{sum(high)}: y;
var 0..{sum(high)}: goal;
constraint {name}(x, y, w, h) /\\ forall (i in 1..{boxes}) (x[i] + w[i] <= {width} /\\ y[i] + h[i] <= goal);
solve :: int_search([goal] ++ y ++ x, input_order, indomain_min) minimize goal;
"""


def squares(sizes, width, height, zero=False):
    if zero:
        sizes = sizes + [0]
    name = "diffn_nonstrict" if zero else "diffn"
    return f"""array [1..{len(sizes)}] of int: s = {sizes};
array [1..{len(sizes)}] of var 0..{width}: x;
array [1..{len(sizes)}] of var 0..{height}: y;
constraint {name}(x, y, s, s) /\\ forall (i in 1..{len(sizes)}) (x[i] + s[i] <= {width} /\\ y[i] + s[i] <= {height});
solve :: int_search(x ++ y, smallest, indomain_min) satisfy;
"""


def design(v, b, r, k, together, kind="int"):
    if kind == "bool":
        return f"""array [1..{v}, 1..{b}] of var bool: x;
constraint forall (i in 1..{v}) (sum (j in 1..{b}) (bool2int(x[i, j])) = {r});
constraint forall (j in 1..{b}) (sum (i in 1..{v}) (bool2int(x[i, j])) = {k});
constraint forall (i, j in 1..{v} where i < j) (sum (l in 1..{b}) (bool2int(x[i, l] /\\ x[j, l])) = {together});
constraint lex_chain_lesseq(x) /\\ forall (i in 1..{v} - 1) (lex_lesseq(x[i, ..], x[i + 1, ..]));
solve :: bool_search(array1d(x), input_order, indomain_min) satisfy;
"""
    return f"""array [1..{v}, 1..{b}] of var 0..1: x;
constraint forall (i in 1..{v}) (sum(x[i, ..]) = {r}) /\\ forall (j in 1..{b}) (sum(x[.., j]) = {k});
constraint forall (i, j in 1..{v} where i < j) (sum (l in 1..{b}) (x[i, l] * x[j, l]) = {together});
constraint lex2(x);
solve :: int_search(array1d(x), input_order, indomain_min) satisfy;
"""


def codes(words, length, apart):
    return f"""array [1..{words}, 1..{length}] of var 0..2: x;
constraint forall (i, j in 1..{words} where i < j) (sum (k in 1..{length}) (bool2int(x[i, k] != x[j, k])) >= {apart});
constraint forall (i in 1..{words} - 1) (lex_less(x[i, ..], x[i + 1, ..])) /\\ lex_chain_lesseq(x);
solve :: int_search(array1d(x), input_order, indomain_min) satisfy;
"""


def fair_loads(things, bins, seed):
    weight = numbers(seed, things, 5, 30)
    return f"""array [1..{things}] of int: w = {weight};
array [1..{things}] of var 1..{bins}: bin;
array [1..{bins}] of var 0..{sum(weight)}: load;
array [1..{bins}] of var 0..{sum(weight)}: sorted;
constraint forall (b in 1..{bins}) (load[b] = sum (i in 1..{things}) (w[i] * bool2int(bin[i] = b))) /\\ sort(load, sorted);
var 0..{bins * sum(weight)}: goal = sum (b in 1..{bins}) (b * sorted[b]);
solve :: int_search(bin, input_order, indomain_min) minimize goal;
"""


def far_from_sorted(n, top):
    return f"""array [1..{n}] of var 0..{top}: x;
array [1..{n}] of var 0..{top}: y = sort(x);
constraint sum(x) = {n * top // 2} /\\ forall (i in 1..{n} - 1) (abs(x[i] - x[i + 1]) in 1..2);
var 0..{n * top}: goal = sum (i in 1..{n}) (abs(x[i] - y[i]));
solve :: int_search(x, input_order, indomain_min) maximize goal;
"""


def prizes(towns, seed):
    prize, way = numbers(seed, towns, 0, 30), numbers(seed + 1, towns * towns, 4, 30)
    return f"""array [1..{towns}] of int: prize = {prize};
array [1..{towns}, 1..{towns}] of int: way = {rows(way, towns)};
array [1..{towns}] of var 1..{towns}: next;
constraint subcircuit(next) /\\ next[1] != 1;
var {-31 * towns}..{31 * towns}: goal = sum (i in 1..{towns}) (if next[i] = i then 0 else prize[i] - way[i, next[i]] endif);
solve :: int_search(next, first_fail, indomain_min) maximize goal;
"""


def longest_round(width, height):
    n = width * height
    near = [
        "{" + ", ".join(str(b) for b in range(1, n + 1) if b == a or abs((a - 1) % width - (b - 1) % width) + abs((a - 1) // width - (b - 1) // width) == 1) + "}"
        for a in range(1, n + 1)
    ]
    return f"""array [1..{n}] of set of int: near = [{", ".join(near)}];
array [1..{n}] of var 1..{n}: next;
constraint subcircuit(next) /\\ forall (i in 1..{n}) (next[i] in near[i]) /\\ next[2] != 2;
var 0..{n}: goal = sum (i in 1..{n}) (bool2int(next[i] != i));
solve :: int_search(next, first_fail, indomain_max) maximize goal;
"""


def round_robin(teams, seed):
    return f"""int: n = {teams};
array [1..n - 1, 1..n * n] of int: cost = {rows(numbers(seed, (teams - 1) * teams * teams, 0, 9), teams * teams)};
array [1..n - 1, 1..n] of var 1..n: meets;
constraint forall (r in 1..n - 1) (inverse(meets[r, ..], meets[r, ..]) /\\ forall (t in 1..n) (meets[r, t] != t));
constraint forall (t in 1..n) (all_different(meets[.., t])) /\\ forall (t in 2..n) (meets[t - 1, 1] = t);
var 0..9 * n * n: goal = sum (r in 1..n - 1, t in 1..n) (cost[r, (t - 1) * n + meets[r, t]]);
solve :: int_search(array1d(meets), first_fail, indomain_min) minimize goal;
"""


def both_ways(n):
    return f"""array [1..{n}] of var 1..{n}: x;
array [1..{n}] of var 1..{n}: y;
constraint inverse(x, y) /\\ all_different([x[i + 1] - x[i] | i in 1..{n} - 1]) /\\ all_different([y[i + 1] - y[i] | i in 1..{n} - 1]);
constraint forall (i in 1..{n} - 1) (abs(x[i + 1] - x[i]) != 1 /\\ abs(y[i + 1] - y[i]) != 2);
var 0..{n * n * n}: goal = sum (i in 1..{n}) (i * x[i] + (i mod 3) * y[i]);
solve :: int_search(x, first_fail, indomain_min) maximize goal;
"""


def picture(size, seed):
    source = random.Random(seed)
    cells = [[int(source.random() < 0.6) for _ in range(size)] for _ in range(size)]

    def clue(line):
        runs = [len(run) for run in "".join(map(str, line)).split("0") if run]
        return '"' + "0* " + " 0+ ".join(f"1{{{run}}}" for run in runs) + ' 0*"'

    across = ", ".join(clue(line) for line in cells)
    down = ", ".join(clue(line) for line in zip(*cells))
    return f"""array [1..{size}] of string: across = [{across}];
array [1..{size}] of string: down = [{down}];
array [1..{size}, 1..{size}] of var 0..1: x;
constraint forall (i in 1..{size}) (regular(x[i, ..], across[i]) /\\ regular(x[.., i], down[i]));
solve :: int_search(array1d(x), input_order, indomain_min) satisfy;
"""


def roster(nurses, days, seed):
    wish = numbers(seed, nurses * days, 0, 9)
    day, night = nurses // 3 + 1, nurses // 4
    return f"""array [1..{nurses}, 1..{days}] of int: wish = {rows(wish, days)};
array [1..{nurses}, 1..{days}] of var 1..3: x;
constraint forall (i in 1..{nurses}) (regular(x[i, ..], 6, 3, [|2, 4, 1|3, 4, 1|0, 4, 1|0, 5, 6|0, 0, 6|2, 0, 1|], 1, 1..6));
constraint forall (d in 1..{days}) (count(x[.., d], 1) = {day} /\\ count(x[.., d], 2) = {night});
var 0..{9 * nurses * days}: goal = sum (i in 1..{nurses}, d in 1..{days}) (wish[i, d] * bool2int(x[i, d] = 1));
solve :: int_search([x[i, d] | d in 1..{days}, i in 1..{nurses}], input_order, indomain_min) minimize goal;
"""


def words_of_nfa(length, seed):
    wish = numbers(seed, length, 0, 9)
    return f"""array [1..{length}] of int: wish = {wish};
array [1..{length}] of var 1..3: x;
constraint regular_nfa(x, 4, 3, [|{{1, 2}}, {{1}}, {{1, 3}}|{{3}}, {{2, 4}}, {{}}|{{}}, {{4}}, {{3}}|{{1}}, {{1, 4}}, {{2}}|], 1, {{4}});
constraint forall (i in 1..{length} - 2) (x[i] != x[i + 1] \\/ x[i + 1] != x[i + 2]);
var 0..{27 * length}: goal = sum (i in 1..{length}) (wish[i] * x[i]);
solve :: int_search(x, input_order, indomain_min) maximize goal;
"""


def pairs_of_nfa(count, length):
    return f"""array [1..{count}, 1..{length}] of var 1..2: x;
constraint forall (i in 1..{count}) (regular_nfa(x[i, ..], 3, 2, [|{{1, 2}}, {{1}}|{{3}}, {{3}}|{{3}}, {{2, 3}}|], 1, {{3}}));
constraint forall (i, j in 1..{count} where i < j) (sum (k in 1..{length}) (bool2int(x[i, k] != x[j, k])) >= {length // 2 + 1});
solve :: int_search(array1d(x), input_order, indomain_min) satisfy;
"""


def shifts(workers, days, seed):
    pay = numbers(seed, 12, 1, 9)
    return f"""array [1..{workers}, 1..{days}] of var 1..3: x;
array [1..{workers}] of var 0..{9 * days}: cost;
constraint forall (i in 1..{workers}) (cost_regular(x[i, ..], 4, 3, [|2, 3, 1|2, 3, 1|0, 4, 1|0, 0, 1|], 1, 1..4, {rows(pay, 3)}, cost[i]));
constraint forall (d in 1..{days}) (count(x[.., d], 1) >= 1 /\\ count(x[.., d], 2) >= 1);
var 0..{9 * days * workers}: goal = sum(cost);
solve :: int_search([x[i, d] | d in 1..{days}, i in 1..{workers}], input_order, indomain_min) minimize goal;
"""


def one_line(length, seed):
    pay = numbers(seed, 12, -5, 9)
    return f"""array [1..{length}] of var 1..3: x;
constraint forall (i in 1..{length} - 4) (nvalue(3, x[i..i + 4]));
var {-5 * length}..{9 * length}: goal;
constraint cost_regular(x, 4, 3, [|2, 3, 1|2, 3, 4|0, 4, 1|1, 0, 1|], 1, 1..4, {rows(pay, 3)}, goal);
solve :: int_search(x, input_order, indomain_min) minimize goal;
"""


def diagram(levels, width, seed, kind):
    """A diagram of so many nodes a level at most, each with an edge for most of the numbers 1 to 3; each node is reached."""
    source = random.Random(seed)
    at, last = {1: [1]}, 1
    for level in range(2, levels + 1):
        at[level] = list(range(last + 1, last + 1 + min(width, 2 * len(at[level - 1]))))
        last = at[level][-1]
    edges = []
    for level in range(1, levels + 1):
        ends = at.get(level + 1, [0])
        source.shuffle(ends)
        for place, node in enumerate(sorted(at[level])):
            for value in (1, 2, 3):
                if value < 3 or source.random() < 0.7:
                    edges.append((node, value, ends[(2 * place + value) % len(ends)], source.randint(1, 9)))
                if kind == "mdd_nondet" and len(ends) > 1:
                    edges.append((node, value, ends[(2 * place + value + 1) % len(ends)], source.randint(1, 9)))
    level_of = [level for level in range(1, levels + 1) for _ in at[level]]
    lists = [[edge[0] for edge in edges], [{edge[1]} for edge in edges], [edge[2] for edge in edges]]
    cost = f"{[edge[3] for edge in edges]}, " if kind == "cost_mdd" else ""
    return f"{last}, {level_of}, {len(edges)}, {lists[0]}, {lists[1]}, {cost}{lists[2]}"


def ways(levels, width, seed, kind):
    wish = numbers(seed + 1, levels, 1, 9)
    goal = "goal" if kind == "cost_mdd" else ""
    value = "" if goal else f"constraint goal = sum (i in 1..{levels}) ({wish}[i] * x[i]);\n"
    end = f", {goal}" if goal else ""
    return f"""array [1..{levels}] of var 1..3: x;
var 0..{100 * levels}: goal;
constraint {kind}(x, {diagram(levels, width, seed, kind)}{end});
constraint forall (v in 1..3) (count(x, v) >= {levels // 4});
{value}solve :: int_search(x, input_order, indomain_min) minimize goal;
"""


def ways_apart(count, levels, width, seed, kind):
    costs = f"array [1..{count}] of var 0..{9 * levels}: cost;\n" if kind == "cost_mdd" else ""
    end = ", cost[i]" if costs else ""
    equal = f"constraint forall (i in 1..{count} - 1) (cost[i] < cost[i + 1]);\n" if costs else ""
    return f"""array [1..{count}, 1..{levels}] of var 1..3: x;
{costs}constraint forall (i in 1..{count}) ({kind}(x[i, ..], {diagram(levels, width, seed, kind)}{end}));
constraint forall (i, j in 1..{count} where i < j) (sum (k in 1..{levels}) (bool2int(x[i, k] != x[j, k])) >= {levels // 2 + 1});
{equal}solve :: int_search(array1d(x), input_order, indomain_min) satisfy;
"""


def bins(things, seed):
    weight = numbers(seed, things, 8, 40)
    most = sum(weight) // 50 + 3
    return f"""array [1..{things}] of int: w = {sorted(weight, reverse=True)};
array [1..{things}] of var 1..{most}: bin;
constraint bin_packing(50, bin, w);
var 1..{most}: goal = max(bin);
solve :: int_search([goal] ++ bin, input_order, indomain_min) minimize goal;
"""


def full_bins(things, count, seed):
    weight = numbers(seed, things, 5, 30)
    room = -(-sum(weight) // count)
    return f"""array [1..{things}] of int: w = {sorted(weight, reverse=True)};
array [1..{things}] of var 1..{count}: bin;
array [1..{count}] of int: room = {[room + at % 2 for at in range(count)]};
constraint bin_packing_capa(room, bin, w);
constraint forall (i in 1..{things} - 3) (bin[i] != bin[i + 3]);
solve :: int_search(bin, first_fail, indomain_min) satisfy;
"""


def one_capacity(things, count, seed):
    weight = numbers(seed, things, 5, 30)
    return f"""array [1..{things}] of int: w = {sorted(weight, reverse=True)};
array [1..{things}] of var 1..{count}: bin;
constraint bin_packing({-(-sum(weight) // count)}, bin, w);
constraint forall (i in 1..{things} - 3) (bin[i] != bin[i + 3]);
solve :: int_search(bin, first_fail, indomain_min) satisfy;
"""


def costs_by_bin(things, count, seed):
    weight = numbers(seed, things, 5, 30)
    room = -(-sum(weight) * 21 // (20 * count))
    return f"""array [1..{things}] of int: w = {weight};
array [1..{things}, 1..{count}] of int: cost = {rows(numbers(seed + 1, things * count, 1, 30), count)};
array [1..{things}] of var 1..{count}: bin;
constraint bin_packing_capa({[room] * count}, bin, w);
var 0..{30 * things}: goal = sum (i in 1..{things}) (cost[i, bin[i]]);
solve :: int_search(bin, first_fail, indomain_min) minimize goal;
"""


def wishes(count, terms, values, seed, length):
    source = random.Random(seed)
    table = [value for _ in range(count * 6) for value in [source.randint(1, values) for _ in range(length)]]
    places = [place for _ in range(count) for place in source.sample(range(1, terms + 1), length)]
    return f"""array [1..{count}, 1..{length}] of int: place = {rows(places, length)};
array [1..{count * 6}, 1..{length}] of int: row = {rows(table, length)};
array [1..{terms}] of var 1..{values}: x;
var 0..{count}: goal = sum (c in 1..{count}) (bool2int(table([x[place[c, k]] | k in 1..{length}],
    array2d(1..6, 1..{length}, [row[6 * (c - 1) + r, k] | r in 1..6, k in 1..{length}]))));
solve :: int_search(x, input_order, indomain_min) maximize goal;
"""


def forbidden(terms, values, seed, length):
    source = random.Random(seed)
    text = f"array [1..{terms}] of var 1..{values}: x;\n"
    for _ in range(6 * terms):
        at = source.sample(range(1, terms + 1), length)
        table = [source.randint(1, values) for _ in range(8 * length)]
        text += f"constraint not table([{', '.join(f'x[{place}]' for place in at)}], {rows(table, length)});\n"
    return text + "solve :: int_search(x, input_order, indomain_min) satisfy;\n"


def of(*models):
    return [(label, HEAD + model) for label, model in models]


REDEFINITIONS = {
    "disjunctive": (["fzn_disjunctive", "fzn_disjunctive_strict"], of(
        ("job_shop_5_4", job_shop(5, 4, 1)), ("job_shop_7_5", job_shop(7, 5, 2)),
        ("late_jobs_8", late_jobs(8, 3)), ("late_jobs_11", late_jobs(11, 5)))),
    "disjunctive_strict": (["fzn_disjunctive_strict"], of(
        ("strict_tools_8", strict_tools(8, 6)), ("strict_tools_10", strict_tools(10, 5)),
        ("job_shop_4_4", job_shop(4, 4, 7)), ("job_shop_6_6", job_shop(6, 6, 8)))),
    "disjunctive of options": (["fzn_disjunctive_opt", "fzn_disjunctive_strict_opt"], of(
        ("flexible_shop_6_2", flexible_shop(6, 2, 9)), ("flexible_shop_8_3", flexible_shop(8, 3, 10)),
        ("accepted_10", accepted(10, 11)), ("accepted_12", accepted(12, 12)))),
    "cumulative of options": (["fzn_cumulative_opt", "fzn_disjunctive_opt", "fzn_disjunctive_strict_opt"], of(
        ("teams_10", teams(10, 13)), ("teams_14", teams(14, 14)),
        ("chosen_tasks_8", chosen_tasks(8, 15)), ("chosen_tasks_11", chosen_tasks(11, 16)))),
    "diffn": (["fzn_diffn"], of(
        ("strip_7", strip(7, 10, 17)), ("strip_9", strip(9, 12, 18)),
        ("squares_9", squares([18, 15, 14, 10, 9, 8, 7, 4, 1], 32, 33)),
        ("squares_10", squares([8, 7, 6, 5, 4, 4, 3, 3, 2, 2], 16, 14)))),
    "diffn_nonstrict": (["fzn_diffn_nonstrict"], of(
        ("strip_with_0_7", strip(7, 10, 17, True)), ("strip_with_0_9", strip(9, 12, 18, True)),
        ("squares_with_0_9", squares([18, 15, 14, 10, 9, 8, 7, 4, 1], 32, 33, True)),
        ("squares_with_0_10", squares([8, 7, 6, 5, 4, 4, 3, 3, 2, 2], 16, 14, True)))),
    "lex orders of integers": (["fzn_lex_less_int", "fzn_lex_lesseq_int"], of(
        ("design_9_12", design(9, 12, 4, 3, 1)), ("design_10_30", design(10, 30, 9, 3, 2)),
        ("codes_9_6", codes(9, 6, 4)), ("codes_10_7", codes(10, 7, 5)))),
    "lex orders of Booleans": (["fzn_lex_less_bool", "fzn_lex_lesseq_bool"], of(
        ("design_of_booleans_7_7", design(7, 7, 3, 3, 1, "bool")), ("design_of_booleans_9_12", design(9, 12, 4, 3, 1, "bool")),
        ("design_of_booleans_6_20", design(6, 20, 10, 3, 4, "bool")), ("design_of_booleans_10_30", design(10, 30, 9, 3, 2, "bool")))),
    "sort": (["fzn_sort"], of(
        ("fair_loads_8_3", fair_loads(8, 3, 19)), ("fair_loads_10_3", fair_loads(10, 3, 20)),
        ("far_from_sorted_6", far_from_sorted(6, 6)), ("far_from_sorted_8", far_from_sorted(8, 8)))),
    "subcircuit": (["fzn_subcircuit"], of(
        ("prizes_9", prizes(9, 22)), ("prizes_10", prizes(10, 21)),
        ("longest_round_5_3", longest_round(5, 3)), ("longest_round_5_5", longest_round(5, 5)))),
    "inverse": (["fzn_inverse"], of(
        ("round_robin_6", round_robin(6, 23)), ("round_robin_8", round_robin(8, 24)),
        ("both_ways_8", both_ways(8)), ("both_ways_10", both_ways(10)))),
    "regular": (["fzn_regular", "fzn_regular_set"], of(
        ("picture_20", picture(20, 25)), ("picture_40", picture(40, 26)),
        ("roster_5_6", roster(5, 6, 27)), ("roster_6_6", roster(6, 6, 28)))),
    "regular_nfa": (["fzn_regular_nfa", "fzn_regular_nfa_set"], of(
        ("words_of_nfa_18", words_of_nfa(18, 55)), ("words_of_nfa_24", words_of_nfa(24, 56)),
        ("pairs_of_nfa_4_11", pairs_of_nfa(4, 11)), ("pairs_of_nfa_6_14", pairs_of_nfa(6, 14)))),
    "cost_regular": (["fzn_cost_regular"], of(
        ("shifts_4_5", shifts(4, 5, 30)), ("shifts_5_5", shifts(5, 5, 29)),
        ("one_line_18", one_line(18, 32)), ("one_line_30", one_line(30, 31)))),
    "mdd": (["fzn_mdd"], of(
        ("ways_14", ways(14, 8, 34, "mdd")), ("ways_20", ways(20, 12, 33, "mdd")),
        ("ways_apart_4_10", ways_apart(4, 10, 6, 35, "mdd")), ("ways_apart_5_12", ways_apart(5, 12, 6, 36, "mdd")))),
    "mdd_nondet": (["fzn_mdd_nondet"], of(
        ("ways_of_many_13", ways(13, 8, 38, "mdd_nondet")), ("ways_of_many_18", ways(18, 10, 37, "mdd_nondet")),
        ("ways_of_many_apart_4_8", ways_apart(4, 8, 5, 39, "mdd_nondet")),
        ("ways_of_many_apart_5_12", ways_apart(5, 12, 6, 40, "mdd_nondet")))),
    "cost_mdd": (["fzn_cost_mdd"], of(
        ("ways_at_a_cost_8", ways(8, 5, 41, "cost_mdd")), ("ways_at_a_cost_12", ways(12, 8, 42, "cost_mdd")),
        ("ways_at_a_cost_apart_3_6", ways_apart(3, 6, 4, 43, "cost_mdd")),
        ("ways_at_a_cost_apart_4_8", ways_apart(4, 8, 5, 44, "cost_mdd")))),
    "bin_packing": (["fzn_bin_packing"], of(
        ("bins_12", bins(12, 45)), ("bins_16", bins(16, 46)),
        ("one_capacity_18_5", one_capacity(18, 5, 48)), ("one_capacity_24_6", one_capacity(24, 6, 47)))),
    "bin_packing_capa": (["fzn_bin_packing_capa"], of(
        ("full_bins_18_5", full_bins(18, 5, 48)), ("full_bins_24_6", full_bins(24, 6, 47)),
        ("costs_by_bin_14_4", costs_by_bin(14, 4, 49)), ("costs_by_bin_18_5", costs_by_bin(18, 5, 50)))),
    "table, reified": (["fzn_table_int_reif"], of(
        ("wishes_12_8", wishes(12, 8, 4, 51, 3)), ("wishes_24_10", wishes(24, 10, 4, 52, 4)),
        ("forbidden_12", forbidden(12, 3, 53, 3)), ("forbidden_18", forbidden(18, 4, 54, 4)))),
}
