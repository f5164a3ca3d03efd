"""Models with a goal. Their data come from a seed.

What both programs do alike: sums narrow bounds, elements of numbers and tables keep the values that have a partner, all_different
is asked for its values alone. So the models are made of these, and of machines that do one job at a time as two reified orders and
a clause. What they don't: fzn decides `int_eq_reif` by the ends of what is left, fzn-gecode by holes as well (the models that
count, `open_stacks`); of a sum that leaves two equal variables once it has dropped what is fixed at the start, fzn-gecode narrows
whole domains (the rulers); and each has a strength of its own of cumulative (`project`) and of elements of variables
(`tour_by_successor`).
"""
import random

from texts import Text, listed


def knapsack(items, seed):
    text, dice = Text(), random.Random(seed)
    weights = [dice.randint(10, 60) for _ in range(items)]
    values = [w + dice.randint(-8, 8) for w in weights]
    x = [text.variable(f"x{i}", "0..1") for i in range(items)]
    worth = text.variable("worth", f"0..{sum(values)}")
    text.linear("le", list(zip(weights, x)), sum(weights) // 2)
    text.total(zip(values, x), worth)
    text.goal = "maximize worth"
    return text


def luggage(items, limits, seed):
    """How many of each item to take, within several limits."""
    text, dice = Text(), random.Random(seed)
    x = [text.variable(f"x{i}", "0..3") for i in range(items)]
    values = [dice.randint(10, 40) for _ in x]
    worth = text.variable("worth", f"0..{3 * sum(values)}")
    for _ in range(limits):
        weights = [dice.randint(5, 40) for _ in x]
        text.linear("le", list(zip(weights, x)), sum(weights))
    text.total(zip(values, x), worth)
    text.divide(x, value="indomain_max")
    text.goal = "maximize worth"
    return text


def least_ruler(marks, length):
    """The shortest ruler whose marks have different distances."""
    text = Text()
    x = [text.variable(f"x{i}", f"0..{length}") for i in range(marks)]
    text.add(f"int_eq({x[0]},0)")
    distances = []
    for i in range(marks):
        for j in range(i):
            distances.append(text.hidden(f"d{j}_{i}", f"1..{length}"))
            text.linear("eq", [(1, x[i]), (-1, x[j]), (-1, distances[-1])], 0)
    for i in range(1, marks):
        text.add(f"int_lt({x[i - 1]},{x[i]})")
    text.different(distances)
    text.goal = f"minimize x{marks - 1}"
    return text


def assignment(agents, seed):
    """Agents take different tasks, at the least cost in all."""
    text, dice = Text(), random.Random(seed)
    tasks = [text.variable(f"t{i}", f"1..{agents}") for i in range(agents)]
    costs = []
    for i, task in enumerate(tasks):
        costs.append(text.hidden(f"c{i}", "1..40"))
        text.element(task, [dice.randint(1, 40) for _ in range(agents)], costs[-1])
    total = text.variable("total", f"0..{40 * agents}")
    text.different(tasks)
    text.total([(1, cost) for cost in costs], total)
    text.goal = "minimize total"
    return text


def shop(jobs, machines, longest, seed, orders_first=False):
    """Jobs go over all machines, each in an order of its own, and the last one ends as early as it may."""
    text, dice = Text(), random.Random(seed)
    times = [[dice.randint(1, longest) for _ in range(machines)] for _ in range(jobs)]
    routes = [dice.sample(range(machines), machines) for _ in range(jobs)]
    horizon = sum(map(sum, times))
    starts = [[text.variable(f"s{j}_{m}", f"0..{horizon}") for m in range(machines)] for j in range(jobs)]
    end = text.variable("end", f"0..{horizon}")
    for j, route in enumerate(routes):
        for m, n in zip(route, route[1:]):
            text.before(starts[j][m], times[j][m], starts[j][n])
        text.before(starts[j][route[-1]], times[j][route[-1]], end)
    orders = [
        name
        for m in range(machines)
        for j in range(jobs)
        for i in range(j)
        for name in text.apart(starts[i][m], times[i][m], starts[j][m], times[j][m])
    ]
    if orders_first:
        text.divide(orders, value="indomain_max")
        text.divide([end])
    text.goal = "minimize end"
    return text


def tardiness(jobs, seed):
    """One machine does all jobs, and what they are late costs by their weights."""
    text, dice = Text(), random.Random(seed)
    times = [dice.randint(2, 12) for _ in range(jobs)]
    horizon = sum(times)
    starts = [text.variable(f"s{j}", f"0..{horizon - times[j]}") for j in range(jobs)]
    orders = [
        name
        for j in range(jobs)
        for i in range(j)
        for name in text.apart(starts[i], times[i], starts[j], times[j])
    ]
    late = []
    for j, start in enumerate(starts):
        due = dice.randint(times[j], 2 * horizon // 3)
        over = text.hidden(f"over{j}", f"{-horizon}..{horizon}")
        text.linear("eq", [(1, start), (-1, over)], due - times[j])
        late.append((dice.randint(1, 9), text.hidden(f"late{j}", f"0..{horizon}")))
        text.add(f"int_max({over},0,{late[-1][1]})")
    cost = text.variable("cost", f"0..{9 * horizon * jobs}")
    text.total(late, cost)
    text.divide(starts, "smallest")
    text.divide(orders)
    text.goal = "minimize cost"
    return text


def project(tasks, seed):
    """Tasks that wait for others and share two resources."""
    text, dice = Text(), random.Random(seed)
    times = [dice.randint(1, 8) for _ in range(tasks)]
    horizon = sum(times)
    starts = [text.variable(f"s{i}", f"0..{horizon - times[i]}") for i in range(tasks)]
    end = text.variable("end", f"0..{horizon}")
    for i in range(tasks):
        for j in dice.sample(range(i), min(i, 1)):
            text.before(starts[j], times[j], starts[i])
        text.before(starts[i], times[i], end)
    for capacity in (6, 5):
        text.cumulative(starts, times, [dice.randint(1, 4) for _ in starts], capacity)
    text.divide(starts, "smallest")
    text.goal = "minimize end"
    return text


def strip(rectangles, width, seed):
    """Rectangles in a strip of this width, as low as they may."""
    text, dice = Text(), random.Random(seed)
    sizes = [(dice.randint(2, 6), dice.randint(2, 6)) for _ in range(rectangles)]
    tall = sum(b for _, b in sizes)
    x = [text.variable(f"x{i}", f"0..{width - a}") for i, (a, _) in enumerate(sizes)]
    y = [text.variable(f"y{i}", f"0..{tall - b}") for i, (_, b) in enumerate(sizes)]
    height = text.variable("height", f"0..{tall}")
    for i, (a, b) in enumerate(sizes):
        text.before(y[i], b, height)
        for j in range(i):
            orders = [
                text.whether_before(x[i], a, x[j]),
                text.whether_before(x[j], sizes[j][0], x[i]),
                text.whether_before(y[i], b, y[j]),
                text.whether_before(y[j], sizes[j][1], y[i]),
            ]
            text.clause(orders, [])
    text.divide([height])
    text.divide([name for pair in zip(x, y) for name in pair])
    text.goal = "minimize height"
    return text


def machines(jobs, count, seed):
    """Jobs on machines that are alike, so that the longest day is short."""
    text, dice = Text(), random.Random(seed)
    times = [dice.randint(5, 40) for _ in range(jobs)]
    x = [text.variable(f"x{j}", f"1..{min(j + 1, count)}") for j in range(jobs)]
    loads = [text.hidden(f"load{m}", f"0..{sum(times)}") for m in range(1, count + 1)]
    for m, load in enumerate(loads, 1):
        text.total([(time, text.whether_is(name, m)) for time, name in zip(times, x)], load)
    longest = text.variable("longest", f"0..{sum(times)}")
    text.greatest(longest, loads)
    text.divide(x)
    text.goal = "minimize longest"
    return text


def bins(items, capacity, seed):
    """Items in few bins. The larger come first, and the first i go to the first i bins."""
    text, dice = Text(), random.Random(seed)
    sizes = sorted((dice.randint(capacity // 5, capacity // 2) for _ in range(items)), reverse=True)
    x = [text.variable(f"x{i}", f"1..{i + 1}") for i in range(items)]
    count = text.variable("count", f"1..{items}")
    for b in range(1, items + 1):
        text.linear("le", [(size, text.whether_is(name, b)) for size, name in zip(sizes, x)], capacity)
    text.greatest(count, x)
    text.divide(x)
    text.goal = "minimize count"
    return text


def warehouses(stores, places, seed):
    """Each store is served by a warehouse that is open and has room."""
    text, dice = Text(), random.Random(seed)
    x = [text.variable(f"x{s}", f"1..{places}") for s in range(stores)]
    costs = []
    for s, name in enumerate(x):
        costs.append(text.hidden(f"c{s}", "1..60"))
        text.element(name, [dice.randint(1, 60) for _ in range(places)], costs[-1])
    opened = [text.hidden(f"open{w}", "0..1") for w in range(1, places + 1)]
    for w, name in enumerate(opened, 1):
        served = [(1, text.whether_is(store, w)) for store in x]
        text.linear("le", served + [(-dice.randint(2, 4), name)], 0)
    total = text.variable("total", f"0..{60 * stores + 30 * places}")
    text.total([(1, cost) for cost in costs] + [(30, name) for name in opened], total)
    text.divide(costs, "first_fail")
    text.goal = "minimize total"
    return text


def distances(cities, seed):
    """How far cities lie from each other in the plane, streets at right angles."""
    dice = random.Random(seed)
    places = [(dice.randint(0, 30), dice.randint(0, 30)) for _ in range(cities)]
    return [[abs(a - c) + abs(b - d) for c, d in places] for a, b in places]


def tour_by_table(cities, seed):
    """The shortest way from the first city through all others and back, city by city."""
    text, far = Text(), distances(cities, seed)
    x = [text.variable(f"x{t}", f"0..{cities - 1}") for t in range(cities)]
    text.add(f"int_eq({x[0]},0)")
    text.different(x)
    rows = [(i, j, far[i][j]) for i in range(cities) for j in range(cities) if i != j]
    steps = [text.hidden(f"d{t}", "0..60") for t in range(cities)]
    for t, step in enumerate(steps):
        text.table([x[t], x[(t + 1) % cities], step], rows)
    length = text.variable("length", f"0..{60 * cities}")
    text.total([(1, step) for step in steps], length)
    text.divide(x)
    text.goal = "minimize length"
    return text


def tour_by_successor(cities, seed):
    """The same by the city that comes after each; each place in the tour is one more than the place before it."""
    text, far = Text(), distances(cities, seed)
    after = [text.variable(f"x{i}", f"1..{cities}") for i in range(cities)]
    place = [text.hidden(f"p{i}", f"0..{cities - 1}") for i in range(cities)]
    text.different(after)
    text.different(place)
    text.add(f"int_eq({place[0]},0)")
    steps = [text.hidden(f"d{i}", "0..60") for i in range(cities)]
    for i, name in enumerate(after):
        text.add(f"int_ne({name},{i + 1})")
        text.element(name, far[i], steps[i])
        later = text.hidden(f"l{i}", f"1..{cities}")
        text.add(f"int_plus({place[i]},1,{later})")
        text.add(f"array_var_int_element({name},{listed([cities] + place[1:])},{later})")
    length = text.variable("length", f"0..{60 * cities}")
    text.total([(1, step) for step in steps], length)
    text.divide(after, "first_fail")
    text.goal = "minimize length"
    return text


def plants(count, seed):
    """Plants at places, where much goes between some and the places lie apart."""
    text, dice, far = Text(), random.Random(seed), distances(count, seed)
    x = [text.variable(f"x{i}", f"0..{count - 1}") for i in range(count)]
    text.different(x)
    numbers = [number for row in far for number in row]
    costs = []
    for i in range(count):
        for j in range(i):
            pair = text.hidden(f"k{j}_{i}", f"1..{count * count}")
            way = text.hidden(f"d{j}_{i}", "0..60")
            text.linear("eq", [(count, x[i]), (1, x[j]), (-1, pair)], -1)
            text.element(pair, numbers, way)
            costs.append((dice.randint(0, 5), way))
    cost = text.variable("cost", f"0..{300 * count * count}")
    text.total(costs, cost)
    text.divide(x)
    text.goal = "minimize cost"
    return text


def random_edges(nodes, edges, dice):
    return dice.sample([(i, j) for i in range(nodes) for j in range(i)], edges)


def few_colours(nodes, edges, most, seed):
    """A random graph whose neighbours differ, in few colours."""
    text, dice = Text(), random.Random(seed)
    x = [text.variable(f"x{i}", f"1..{most}") for i in range(nodes)]
    count = text.variable("count", f"1..{most}")
    for i, j in random_edges(nodes, edges, dice):
        text.add(f"int_ne({x[j]},{x[i]})")
    for name in x:
        text.add(f"int_le({name},{count})")
    text.divide(x, "first_fail")
    text.goal = "minimize count"
    return text


def distance_of(text, first, second, most):
    """How far two variables are apart, which is at most a number."""
    difference = text.hidden(f"minus_{first}_{second}", f"{-most}..{most}")
    distance = text.hidden(f"apart_{first}_{second}", f"0..{most}")
    text.linear("eq", [(1, first), (-1, second), (-1, difference)], 0)
    text.add(f"int_abs({difference},{distance})")
    return distance


def photo(people, wishes, seed):
    """People in a row, many of whom stand beside whom they like."""
    text, dice = Text(), random.Random(seed)
    x = [text.variable(f"x{i}", f"1..{people}") for i in range(people)]
    text.different(x)
    text.add(f"int_lt({x[0]},{x[1]})")
    beside = [text.whether_is(distance_of(text, x[i], x[j], people - 1), 1) for i, j in random_edges(people, wishes, dice)]
    count = text.variable("count", f"0..{wishes}")
    text.total([(1, one) for one in beside], count)
    text.divide(x)
    text.goal = "maximize count"
    return text


def arrangement(nodes, edges, seed):
    """A graph's nodes in a row, so that its edges are short in all."""
    text, dice = Text(), random.Random(seed)
    x = [text.variable(f"x{i}", f"1..{nodes}") for i in range(nodes)]
    text.different(x)
    ways = [distance_of(text, x[i], x[j], nodes - 1) for i, j in random_edges(nodes, edges, dice)]
    length = text.variable("length", f"0..{edges * nodes}")
    text.total([(1, way) for way in ways], length)
    text.divide(x)
    text.goal = "minimize length"
    return text


def echoes(length):
    """Ones and minus ones that are little like themselves at any distance, by products."""
    text = Text()
    x = [text.variable(f"x{i}", "{-1,1}") for i in range(length)]
    squares = []
    for step in range(1, length):
        terms = []
        for i in range(length - step):
            terms.append((1, text.hidden(f"p{step}_{i}", "-1..1")))
            text.add(f"int_times({x[i]},{x[i + step]},{terms[-1][1]})")
        most = length - step
        like = text.hidden(f"like{step}", f"{-most}..{most}")
        text.total(terms, like)
        squares.append((1, text.hidden(f"square{step}", f"0..{most * most}")))
        text.add(f"int_times({like},{like},{squares[-1][1]})")
    energy = text.variable("energy", f"0..{length ** 3}")
    text.total(squares, energy)
    text.divide(x)
    text.goal = "minimize energy"
    return text


def cover(sets, members, seed):
    """The cheapest sets that have each member."""
    text, dice = Text(), random.Random(seed)
    x = [text.variable(f"x{i}", "bool") for i in range(sets)]
    for _ in range(members):
        text.clause(dice.sample(x, 4), [])
    cost = text.variable("cost", f"0..{20 * sets}")
    text.add(f"bool_lin_eq({listed(dice.randint(5, 20) for _ in x)},{listed(x)},{cost})")
    text.divide(x)
    text.goal = "minimize cost"
    return text


def independent(nodes, edges, seed):
    """Many nodes of a graph, no two of them neighbours."""
    text, dice = Text(), random.Random(seed)
    x = [text.variable(f"x{i}", "bool") for i in range(nodes)]
    for i, j in random_edges(nodes, edges, dice):
        text.clause([], [x[j], x[i]])
    count = text.variable("count", f"0..{nodes}")
    text.add(f"bool_lin_eq({listed(1 for _ in x)},{listed(x)},{count})")
    text.divide(x, value="indomain_max")
    text.goal = "maximize count"
    return text


def most_clauses(variables, clauses, seed):
    """Clauses of three literals, the weights of those that fail."""
    text, dice = Text(), random.Random(seed)
    x = [text.variable(f"x{i}", "bool") for i in range(variables)]
    failed = [text.hidden(f"f{k}", "bool") for k in range(clauses)]
    for fails in failed:
        three = [(name, dice.random() < 0.5) for name in dice.sample(x, 3)]
        text.clause([name for name, sign in three if sign] + [fails], [name for name, sign in three if not sign])
    cost = text.variable("cost", f"0..{9 * clauses}")
    text.add(f"bool_lin_eq({listed(dice.randint(1, 9) for _ in failed)},{listed(failed)},{cost})")
    text.divide(x)
    text.divide(failed)
    text.goal = "minimize cost"
    return text


def open_stacks(products, customers, seed):
    """An order of products, in which few customers wait at once between the first and the last of theirs."""
    text, dice = Text(), random.Random(seed)
    at = [text.variable(f"x{t}", f"1..{products}") for t in range(1, products + 1)]
    place = [text.hidden(f"p{i}", f"1..{products}") for i in range(1, products + 1)]
    text.different(at)
    text.different(place)
    for i, name in enumerate(place, 1):
        for t, product in enumerate(at, 1):
            same = text.hidden(f"same{i}_{t}", "bool")
            text.add(f"int_eq_reif({name},{t},{same})")
            text.add(f"int_eq_reif({product},{i},{same})")
    stacks = text.variable("stacks", f"0..{customers}")
    waiting = [[] for _ in at]
    for c in range(customers):
        wanted = dice.sample(place, dice.randint(2, 4))
        first, last = (text.hidden(f"{word}{c}", f"1..{products}") for word in ("first", "last"))
        text.add(f"array_int_minimum({first},{listed(wanted)})")
        text.greatest(last, wanted)
        for t, names in enumerate(waiting, 1):
            begun, lasts, waits = (text.hidden(f"{word}{c}_{t}", "bool") for word in ("begun", "lasts", "waits"))
            text.add(f"int_le_reif({first},{t},{begun})")
            text.add(f"int_le_reif({t},{last},{lasts})")
            text.add(f"bool_and({begun},{lasts},{waits})")
            names.append(waits)
    for names in waiting:
        count = text.hidden(f"count{len(text.declarations)}", f"0..{customers}")
        text.add(f"bool_lin_eq({listed(1 for _ in names)},{listed(names)},{count})")
        text.add(f"int_le({count},{stacks})")
    text.divide(at)
    text.goal = "minimize stacks"
    return text


def roster(people, days, seed):
    """Shifts 1 to 3 and free days 0: enough on each shift, no shift before the one of the day before, and few wishes denied."""
    text, dice = Text(), random.Random(seed)
    x = [[text.variable(f"x{d}_{p}", "0..3") for p in range(people)] for d in range(days)]
    rows = [(a, b, c) for a in range(4) for b in range(4) for c in range(4) if allowed(a, b, c)]
    for p in range(people):
        for d in range(days - 2):
            text.table([x[d][p], x[d + 1][p], x[d + 2][p]], rows)
    for d in range(days):
        for shift in (1, 2, 3):
            count = [(-1, text.whether_is(name, shift)) for name in x[d]]
            text.linear("le", count, -1)
    costs = []
    for row in x:
        for name in row:
            costs.append((1, text.hidden(f"cost_{name}", "0..9")))
            text.table([name, costs[-1][1]], [(shift, dice.randint(0, 9)) for shift in range(4)])
    cost = text.variable("cost", f"0..{9 * len(costs)}")
    text.total(costs, cost)
    text.divide([name for row in x for name in row], "first_fail")
    text.goal = "minimize cost"
    return text


def allowed(first, second, third):
    """Of three days in a row one is free, and after a shift comes none that begins earlier."""
    pairs = ((first, second), (second, third))
    return 0 in (first, second, third) and all(b == 0 or a <= b for a, b in pairs)


MODELS = {
    "knapsack_18": lambda: knapsack(18, 2),
    "knapsack_24": lambda: knapsack(24, 2),
    "luggage_14_3": lambda: luggage(14, 3, 1),
    "least_ruler_7": lambda: least_ruler(7, 40),
    "least_ruler_9": lambda: least_ruler(9, 60),
    "assignment_8": lambda: assignment(8, 1),
    "assignment_15": lambda: assignment(15, 3),
    "shop_3_3": lambda: shop(3, 3, 6, 1),
    "shop_7_5": lambda: shop(7, 5, 20, 4, True),
    "tardiness_9": lambda: tardiness(9, 2),
    "project_13": lambda: project(13, 4),
    "strip_7": lambda: strip(7, 11, 6),
    "machines_17_3": lambda: machines(17, 3, 1),
    "bins_18": lambda: bins(18, 60, 2),
    "warehouses_16_8": lambda: warehouses(16, 8, 2),
    "tour_12_by_table": lambda: tour_by_table(12, 1),
    "tour_14_by_successor": lambda: tour_by_successor(14, 1),
    "plants_8": lambda: plants(8, 1),
    "few_colours_55": lambda: few_colours(55, 430, 9, 4),
    "photo_9": lambda: photo(9, 18, 3),
    "arrangement_9": lambda: arrangement(9, 14, 1),
    "echoes_16": lambda: echoes(16),
    "cover_40": lambda: cover(40, 60, 1),
    "independent_60": lambda: independent(60, 280, 2),
    "most_clauses_25": lambda: most_clauses(25, 160, 1),
    "open_stacks_12": lambda: open_stacks(12, 12, 1),
    "roster_5_6": lambda: roster(5, 6, 1),
}
