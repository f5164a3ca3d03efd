"""Families of automata, counts and inverses: a roster, a sequence of cars, a sequence that tells how often each number stands in it, a
tour, a timetable. Their data come from a seed.

fzn-gecode narrows counts and inverses as these constraints' own propagators do; fzn keeps what docs/LANGUAGE.md says.
"""
import random

from texts import Text

# The next state of each for a shift: at most five days at work, at most two nights one after another, none before a day shift.
FREE, DAY, NIGHT = 1, 2, 3


def shifts():
    """An automaton of the shifts: how many states it has, and the next state for each state and shift."""
    states = [(work, nights) for work in range(6) for nights in range(3) if nights <= work]

    def after(state, shift):
        work, nights = state
        if shift == FREE:
            return (0, 0)
        following = (work + 1, nights + 1 if shift == NIGHT else 0)
        return following if following in states and not (shift == DAY and nights) else None

    following = [after(state, shift) for state in states for shift in (FREE, DAY, NIGHT)]
    return len(states), [states.index(one) + 1 if one else 0 for one in following]


def roster(nurses, days, most_days, nights):
    """Each nurse's shifts follow the automaton; each day has so many day shifts and nights."""
    text = Text()
    count, following = shifts()
    x = [[text.variable(f"x{n}_{d}", "1..3") for d in range(days)] for n in range(nurses)]
    for row in x:
        text.regular(row, count, 3, following, 1, f"1..{count}")
    for day in zip(*x):
        text.counts(day, [DAY, NIGHT], [most_days, nights])
    text.divide([name for day in zip(*x) for name in day], pick="first_fail")
    return text


def cars(count, kinds, seed):
    """Cars of kinds with options, of which at most so many of so many neighbours may have one; a sequence exists."""
    text, dice = Text(), random.Random(seed)
    options = [(1, 2), (2, 3), (1, 3)]
    has = [[int(dice.random() < 0.4) for _ in options] for _ in range(kinds)]
    line = []
    while len(line) < count:
        more = line + [dice.randrange(kinds)]
        if all(sum(has[kind][o] for kind in more[-width:]) <= most for o, (most, width) in enumerate(options)):
            line = more
    x = [text.variable(f"x{i}", f"1..{kinds}") for i in range(count)]
    text.counts(x, list(range(1, kinds + 1)), [line.count(kind) for kind in range(kinds)])
    for o, (most, width) in enumerate(options):
        marks = [text.hidden(f"o{o}_{i}", "0..1") for i in range(count)]
        for name, mark in zip(x, marks):
            text.element(name, [row[o] for row in has], mark)
        for i in range(count - width + 1):
            text.linear("le", [(1, mark) for mark in marks[i : i + width]], most)
    text.divide(x)
    return text


def sequence(n):
    """x[i] is how often i stands in x."""
    text = Text()
    x = [text.variable(f"x{i}", f"0..{n - 1}") for i in range(n)]
    text.counts(x, list(range(n)), x)
    text.linear("eq", [(1, name) for name in x], n)
    text.divide(x, value="indomain_max")
    return text


def tour(towns, seed):
    """The towns in an order, of least length: at which place each is, and which is at each place."""
    text, dice = Text(), random.Random(seed)
    ways = [dice.randint(5, 60) for _ in range(towns * towns)]
    place = [text.variable(f"place{t}", f"1..{towns}") for t in range(towns)]
    town = [text.variable(f"town{k}", f"1..{towns}") for k in range(towns)]
    text.inverse(place, town)
    text.different(town)
    length = text.variable("length", f"0..{60 * towns}")
    text.total([(1, text.way(k, town[k], town[(k + 1) % towns], towns, ways)) for k in range(towns)], length)
    text.add(f"int_eq({town[0]},1)")
    text.divide(town)
    text.goal = "minimize length"
    return text


def timetable(lessons, teachers, slots, rooms, seed):
    """Lessons of teachers and groups in slots, each with at most so many rooms; late slots cost most."""
    text, dice = Text(), random.Random(seed)
    x = [text.variable(f"x{i}", f"1..{slots}") for i in range(lessons)]
    for people in (teachers, teachers + 1):
        who = [dice.randrange(people) for _ in x]
        for one in range(people):
            own = [name for name, other in zip(x, who) if other == one]
            if len(own) > 1:
                text.different(own)
    used = [text.hidden(f"used{s}", f"0..{rooms}") for s in range(1, slots + 1)]
    text.counts(x, list(range(1, slots + 1)), used)
    cost = text.variable("cost", f"0..{lessons * slots * 3}")
    text.total([(dice.randint(1, 3), name) for name in x], cost)
    text.divide(x, pick="first_fail")
    text.goal = "minimize cost"
    return text


# A model, and the words it is run with.
MODELS = {
    "roster_8_28": (lambda: roster(8, 28, 3, 2), ["-n", "3000"]),
    "cars_20": (lambda: cars(20, 6, 4), ["-n", "20000"]),
    "sequence_60": (lambda: sequence(60), ["-a"]),
    "tour_by_inverses_9": (lambda: tour(9, 5), []),
    "timetable_by_counts_14": (lambda: timetable(14, 4, 6, 3, 3), []),
}
