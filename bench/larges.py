"""Large models of ten kinds, each easy to solve, so that a run shows what a program pays for the size of a model.

A size is the number of variables or constraints that a kind is about: rows of a table, terms, costs of an assignment. Data come from a
seed. Beside a model's own variables stands `y` from 1 to 1000, which nothing constrains.
"""
import random


def listed(values):
    return "[" + ",".join(str(value) for value in values) + "]"


def array(name, numbers):
    return f"array [1..{len(numbers)}] of int: {name} = {listed(numbers)};"


def variables(name, kind, count):
    return [f"var {kind}: {name}{i};" for i in range(count)]


class Large:
    """Declarations of arrays and of variables, and constraints."""

    def __init__(self, arrays=(), declared=(), constraints=()):
        self.arrays, self.declared = list(arrays), list(declared)
        self.constraints = [f"constraint {constraint};" for constraint in constraints]

    def lines(self, goal, more=()):
        return "\n".join([*self.arrays, *self.declared, "var 1..1000: y :: output_var;", *self.constraints, *more, goal]) + "\n"


def chain(size):
    """A chain of Booleans that is fixed at its root."""
    orders = [f"int_le(x{i},x{i + 1})" for i in range(size - 1)]
    return Large(declared=variables("x", "0..1", size), constraints=[*orders, "int_eq(x0,1)"])


def free(size):
    """Booleans that nothing constrains."""
    return Large(declared=variables("b", "bool", size))


def roster(size):
    """A shift for each of twenty people and each day, a fifth as many as the size: each shift is staffed, and nobody goes from a late
    one to an early one."""
    people, days = 20, size // 100
    declared, constraints = [], []
    for day in range(days):
        for one in range(people):
            declared += [f"var 1..3: x{one}_{day};", f"var bool: e{one}_{day};", f"var bool: l{one}_{day};"]
            constraints += [f"int_eq_reif(x{one}_{day},1,e{one}_{day})", f"int_eq_reif(x{one}_{day},2,l{one}_{day})"]
            if day:
                constraints.append(f"bool_clause([],[l{one}_{day - 1},e{one}_{day}])")
        for word, least in (("e", 5), ("l", 6)):
            names = [f"{word}{one}_{day}" for one in range(people)]
            constraints.append(f"bool_lin_le({listed([-1] * people)},{listed(names)},{-least})")
    return Large(declared=declared, constraints=constraints)


def sums(size):
    """Three terms for each variable, in sums of at most 10,000 terms, of which each is at least a third of what it may be."""
    dice = random.Random(4)
    terms = min(size, 10000)
    constraints = []
    for number in range(3 * size // terms):
        first = number * terms % size
        names = [f"x{(first + i) % size}" for i in range(terms)]
        factors = [dice.randint(1, 5) for _ in range(terms)]
        constraints.append(f"int_lin_le({listed(-factor for factor in factors)},{listed(names)},{-sum(factors) * 10 // 3})")
    return Large(declared=variables("x", "0..10", size), constraints=constraints)


def clauses(size):
    """Three clauses for each Boolean: one or two of which it follows, or that it isn't with another."""
    dice = random.Random(5)
    constraints = []
    for i in range(2, size):
        constraints.append(f"bool_clause([b{i}],[b{dice.randrange(i)},b{dice.randrange(i)}])")
        constraints.append(f"bool_clause([b{i},b{dice.randrange(i)}],[b{dice.randrange(i)}])")
        constraints.append(f"bool_clause([],[b{i},b{dice.randrange(i)},b{dice.randrange(i)}])")
    return Large(declared=variables("b", "bool", size), constraints=constraints)


def tables(size):
    """Ten tables of one array of as many rows of three numbers."""
    dice = random.Random(6)
    rows = [dice.randint(1, 1000) for _ in range(3 * size)]
    constraints = [f"fzn_table_int([x{i},x{i + 1},x{i + 2}],rows)" for i in range(0, 30, 3)]
    return Large([array("rows", rows)], variables("x", "1..1000", 30), constraints)


def elements(size):
    """Ten elements of one array of as many numbers, of which each is greater than the one before."""
    dice = random.Random(7)
    numbers = [dice.randint(1, 1000) for _ in range(size)]
    declared = variables("i", f"1..{size}", 10) + variables("v", "1..1000", 10)
    constraints = [f"array_int_element(i{k},numbers,v{k})" for k in range(10)]
    constraints += [f"int_lt(v{k},v{k + 1})" for k in range(9)]
    return Large([array("numbers", numbers)], declared, constraints)


def different(size):
    """All different, a twentieth of the size."""
    count = size // 20
    return Large(declared=variables("x", f"1..{count}", count), constraints=[f"all_different_int({listed(f'x{i}' for i in range(count))})"])


def three_sat(size):
    """Half as many Booleans as the size, and as many clauses of three of them as Booleans."""
    dice, count = random.Random(9), size // 2
    constraints = []
    for _ in range(count):
        sides = [], []
        for name in dice.sample(range(count), 3):
            sides[dice.randrange(2)].append(f"b{name}")
        constraints.append(f"bool_clause({listed(sides[0])},{listed(sides[1])})")
    return Large(declared=variables("b", "bool", count), constraints=constraints)


def assignment(size):
    """As many costs as the size, a row of them for each task, the tasks to different places, and a total of at most two thirds."""
    dice, count = random.Random(10), int(size**0.5)
    declared = variables("x", f"1..{count}", count) + variables("c", "1..100", count)
    constraints = [f"all_different_int({listed(f'x{i}' for i in range(count))})"]
    for i in range(count):
        costs = [dice.randint(1, 100) for _ in range(count)]
        constraints.append(f"array_int_element(x{i},{listed(costs)},c{i})")
    constraints.append(f"int_lin_le({listed([1] * count)},{listed(f'c{i}' for i in range(count))},{67 * count})")
    return Large(declared=declared, constraints=constraints)


KINDS = {
    "chain": chain,
    "free": free,
    "roster": roster,
    "sums": sums,
    "clauses": clauses,
    "tables": tables,
    "elements": elements,
    "different": different,
    "three_sat": three_sat,
    "assignment": assignment,
}
