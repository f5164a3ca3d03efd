"""Families of everyday kind: rosters that count, spreads of loads, assignments of a quadratic cost, tours by elements, configurations
by tables, timetables, shops by cumulative. Their data come from a seed.

What both programs do alike is said in goals.py. Where they don't: of an equation behind an index fzn-gecode narrows ends alone, as it
is not asked for whole domains here; and it orders tasks that can't run together (`cumulative_shop`).
"""
import random

from searches import queens_of_three
from texts import Text


def queens_first_fail(n):
    """Queens by three all_different, the smallest domain first."""
    text = queens_of_three(n)
    text.divide([f"q{i}" for i in range(n)], pick="first_fail")
    return text


def spread(items, machines, seed):
    """Items on machines, so that the greatest load and the least are as near as may be."""
    text, dice = Text(), random.Random(seed)
    sizes = [dice.randint(5, 60) for _ in range(items)]
    x = [text.variable(f"x{i}", f"1..{machines}") for i in range(items)]
    loads = [text.hidden(f"load{m}", f"0..{sum(sizes)}") for m in range(1, machines + 1)]
    for m, load in enumerate(loads, 1):
        text.total([(size, text.whether_is(name, m)) for size, name in zip(sizes, x)], load)
    most, least = (text.hidden(name, f"0..{sum(sizes)}") for name in ("most", "least"))
    text.greatest(most, loads)
    text.least(least, loads)
    gap = text.variable("gap", f"0..{sum(sizes)}")
    text.linear("eq", [(1, most), (-1, least), (-1, gap)], 0)
    text.divide(x)
    text.goal = "minimize gap"
    return text


def nurses(people, days, seed):
    """A shift for each nurse and day: each shift is staffed, nobody goes from a late one to an early one, and all work as much."""
    text, dice = Text(), random.Random(seed)
    early, late, off = 1, 2, 3
    x = [[text.variable(f"x{p}_{d}", "1..3") for d in range(days)] for p in range(people)]
    turns = [(a, b) for a in (early, late, off) for b in (early, late, off) if (a, b) != (late, early)]
    for d in range(days):
        for shift in (early, late):
            text.linear("eq", [(1, text.whether_is(row[d], shift)) for row in x], max(1, people // 3))
    for row in x:
        text.linear("le", [(1, text.hidden_is(name, off)) for name in row], days - days // 2)
        for first, second in zip(row, row[1:]):
            text.table([first, second], turns)
        wish = dice.randrange(days)
        text.add(f"int_ne({row[wish]},{late})")
    return text


def quadratic_assignment(n, seed):
    """Facilities at places, so that the flows between them go the least way."""
    text, dice = Text(), random.Random(seed)
    places = [(dice.randint(0, 9), dice.randint(0, 9)) for _ in range(n)]
    ways = [abs(a - c) + abs(b - d) for a, b in places for c, d in places]
    x = [text.variable(f"x{i}", f"1..{n}") for i in range(n)]
    text.different(x)
    terms = []
    for i in range(n):
        for j in range(i):
            flow = dice.randint(0, 5)
            if flow:
                terms.append((flow, text.way(f"{j}_{i}", x[j], x[i], n, ways)))
    total = text.variable("total", f"0..{sum(flow for flow, _ in terms) * max(ways)}")
    text.total(terms, total)
    text.divide(x)
    text.goal = "minimize total"
    return text


def tour(n, seed):
    """A round trip, by the town at each place of it."""
    text, dice = Text(), random.Random(seed)
    towns = [(dice.randint(0, 99), dice.randint(0, 99)) for _ in range(n)]
    ways = [abs(a - c) + abs(b - d) for a, b in towns for c, d in towns]
    x = [text.variable(f"x{i}", f"1..{n}") for i in range(n)]
    text.add(f"int_eq({x[0]},1)")
    text.different(x)
    terms = [(1, text.way(f"{i}", x[i], x[(i + 1) % n], n, ways)) for i in range(n)]
    total = text.variable("total", f"0..{n * max(ways)}")
    text.total(terms, total)
    text.divide(x)
    text.goal = "minimize total"
    return text


def configuration(parts, kinds, rows, seed):
    """A kind of each part, where tables say which go together, at the least price."""
    text, dice = Text(), random.Random(seed)
    x = [text.variable(f"x{i}", f"1..{kinds}") for i in range(parts)]
    prices = []
    for i, name in enumerate(x):
        prices.append(text.hidden(f"p{i}", "1..99"))
        text.element(name, [dice.randint(1, 99) for _ in range(kinds)], prices[-1])
    for i in range(parts - 2):
        columns = [x[i], x[i + 1], dice.choice(x[i + 2:])]
        text.table(columns, sorted({tuple(dice.randint(1, kinds) for _ in columns) for _ in range(rows)}))
    total = text.variable("total", f"0..{99 * parts}")
    text.total([(1, price) for price in prices], total)
    text.divide(x)
    text.goal = "minimize total"
    return text


def timetable(lessons, slots, rooms, seed):
    """Lessons in slots and rooms: those of a class at different times, no two in a room at once, and each in a room that fits."""
    text, dice = Text(), random.Random(seed)
    times = [text.variable(f"t{i}", f"1..{slots}") for i in range(lessons)]
    halls = [text.variable(f"r{i}", f"1..{rooms}") for i in range(lessons)]
    places = [text.hidden(f"p{i}", f"1..{slots * rooms}") for i in range(lessons)]
    for i in range(lessons):
        text.linear("eq", [(rooms, times[i]), (1, halls[i]), (-1, places[i])], rooms)
        fitting = dice.sample(range(1, rooms + 1), max(2, rooms - 1))
        free = dice.sample(range(1, slots + 1), slots - 1)
        text.table([times[i], halls[i]], sorted((t, r) for t in free for r in fitting))
    text.different(places)
    classes = [dice.randrange(4) for _ in range(lessons)]
    for k in range(4):
        own = [times[i] for i in range(lessons) if classes[i] == k]
        if len(own) > 1:
            text.different(own)
    text.divide(times, pick="first_fail")
    text.divide(halls)
    return text


def cumulative_shop(jobs, machines, longest, seed):
    """Jobs go over all machines, each in an order of its own. A machine does one at a time, as a resource of capacity 1."""
    text, dice = Text(), random.Random(seed)
    times = [[dice.randint(1, longest) for _ in range(machines)] for _ in range(jobs)]
    routes = [dice.sample(range(machines), machines) for _ in range(jobs)]
    horizon = sum(map(sum, times))
    starts = [[text.variable(f"s{j}_{m}", f"0..{horizon}") for m in range(machines)] for j in range(jobs)]
    end = text.variable("end", f"0..{horizon}")
    for j, route in enumerate(routes):
        for first, second in zip(route, route[1:]):
            text.before(starts[j][first], times[j][first], starts[j][second])
        text.before(starts[j][route[-1]], times[j][route[-1]], end)
    for m in range(machines):
        text.cumulative([row[m] for row in starts], [row[m] for row in times], [1] * jobs, 1)
    text.divide([name for row in starts for name in row], pick="smallest")
    text.goal = "minimize end"
    return text


def crowded(tasks, capacity, seed):
    """Tasks that wait for none and share one resource, so that the last one ends as early as it may."""
    text, dice = Text(), random.Random(seed)
    times = [dice.randint(1, 8) for _ in range(tasks)]
    horizon = sum(times)
    starts = [text.variable(f"s{i}", f"0..{horizon - time}") for i, time in enumerate(times)]
    end = text.variable("end", f"0..{horizon}")
    for start, time in zip(starts, times):
        text.before(start, time, end)
    text.cumulative(starts, times, [dice.randint(1, 4) for _ in starts], capacity)
    text.divide(starts, "smallest")
    text.goal = "minimize end"
    return text


# A model, and the words it is run with.
MODELS = {
    "queens_12_first_fail": (lambda: queens_first_fail(12), ["-a"]),
    "spread_12_4": (lambda: spread(12, 4, 3), []),
    "nurses_6_6": (lambda: nurses(6, 6, 2), ["-n", "30000"]),
    "quadratic_8": (lambda: quadratic_assignment(8, 4), []),
    "tour_10": (lambda: tour(10, 5), []),
    "configuration_20": (lambda: configuration(20, 6, 40, 6), []),
    "configuration_16_500": (lambda: configuration(16, 12, 500, 7), []),
    "timetable_18": (lambda: timetable(18, 6, 4, 8), ["-n", "20000"]),
    "cumulative_shop_5_4": (lambda: cumulative_shop(5, 4, 9, 9), []),
    "cumulative_shop_8_5": (lambda: cumulative_shop(8, 5, 9, 10), []),
    "crowded_12": (lambda: crowded(12, 6, 3), []),
}
