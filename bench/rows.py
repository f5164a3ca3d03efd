"""Models whose introduced variables leave many assignments to each row of what is printed, so that a search for all of these lists the same
block again and again: fzn is asked for each row once (`--distinct`), and fzn-gecode lists each once by itself, since it takes one assignment
of the variables that are annotated as introduced.
"""
import random

from texts import Text


def knapsack_with_slack(items, fillers, seed):
    """What is chosen and what fills up the rest weigh as much as the sack holds."""
    text, dice = Text(), random.Random(seed)
    x = [text.variable(f"x{i}", "0..1") for i in range(items)]
    weights = [dice.randint(5, 40) for _ in x]
    rests = [text.introduced(f"rest{i}", "0..9") for i in range(fillers)]
    text.linear("eq", list(zip(weights, x)) + [(1, name) for name in rests], sum(weights) // 2)
    text.divide(x)
    return text


def roster_with_helpers(people, days, helpers, seed):
    """Somebody leads each day, nobody two days in a row, and two of the helpers who are there that day go along."""
    text, dice = Text(), random.Random(seed)
    x = [text.variable(f"x{d}", f"1..{people}") for d in range(days)]
    for first, second in zip(x, x[1:]):
        text.add(f"int_ne({first},{second})")
    for d in range(days):
        there = sorted(dice.sample(range(1, helpers + 1), helpers // 2))
        one, two = (text.introduced(f"{word}{d}", "{" + ",".join(map(str, there)) + "}") for word in ("one", "two"))
        text.add(f"int_lt({one},{two})")
        text.add(f"int_ne({one},{x[d]})")
        text.add(f"int_ne({two},{x[d]})")
    text.divide(x)
    return text


def graph_with_unused_nodes(nodes, unused, colours, seed):
    """Colours of a graph's nodes, of which some aren't shown: each of these stands beside a few others, and is free but for that."""
    text, dice = Text(), random.Random(seed)
    x = [text.variable(f"x{i}", f"1..{colours}") for i in range(nodes)]
    for i in range(nodes):
        for j in range(i):
            if dice.random() < 0.35:
                text.add(f"int_ne({x[i]},{x[j]})")
    for k in range(unused):
        name = text.introduced(f"y{k}", f"1..{colours}")
        for other in dice.sample(x, 2):
            text.add(f"int_ne({name},{other})")
    text.divide(x)
    return text


def packing_with_rests(items, bins, room, seed):
    """Items in bins; what is left of a bin is filled by three rests, in whatever way."""
    text, dice = Text(), random.Random(seed)
    x = [text.variable(f"x{i}", f"1..{bins}") for i in range(items)]
    sizes = [dice.randint(2, 9) for _ in x]
    for bin in range(1, bins + 1):
        terms = []
        for size, name in zip(sizes, x):
            one = text.introduced(f"{name}_in_{bin}", "0..1")
            truth = text.introduced(f"{name}_is_{bin}", "bool")
            text.add(f"int_eq_reif({name},{bin},{truth})")
            text.add(f"bool2int({truth},{one})")
            terms.append((size, one))
        rests = [text.introduced(f"rest{bin}_{k}", f"0..{room}") for k in range(3)]
        text.linear("eq", terms + [(1, name) for name in rests], room)
    text.divide(x)
    return text


# A model, and the words it is run with.
MODELS = {
    "knapsack_with_slack_18": (lambda: knapsack_with_slack(18, 6, 3), ["-a", "--distinct"]),
    "roster_with_helpers_9": (lambda: roster_with_helpers(4, 9, 8, 4), ["-a", "--distinct"]),
    "graph_with_unused_nodes_11": (lambda: graph_with_unused_nodes(11, 14, 4, 3), ["-a", "--distinct"]),
    "packing_with_rests_9": (lambda: packing_with_rests(9, 3, 24, 7), ["-a", "--distinct"]),
}
