"""Models of one constraint each, for the time of a node: four that are measured, and tables and clauses that grow.

They print no variables, so that printing counts little. Tables grow by rows that differ in a column of their own, and clauses by
literals that the search makes false first: for all sizes it is the same search.

Where the strengths differ: of an equality of two variables, as in the queens, fzn-gecode narrows whole domains, and of cumulative
each program has a strength of its own.
"""
import random

from searches import queens_of_three, three_sat, packing
from texts import Text


def silent(text):
    """The text without output."""
    text.declarations = [line.replace(" :: output_var", "") for line in text.declarations]
    return text


def crossword(side, words, seed):
    """A square whose rows and columns are words. Vowels and consonants take turns."""
    text, dice = Text(), random.Random(seed)
    letters = ("aeiou", "bcdfghklmnprst")
    turns = [[letters[(start + k) % 2] for k in range(side)] for start in (0, 1) for _ in range(words // 2)]
    lexicon = {tuple(ord(dice.choice(choices)) - 96 for choices in turn) for turn in turns}
    x = [[text.hidden(f"x{i}_{j}", "1..26") for j in range(side)] for i in range(side)]
    for line in x + [list(column) for column in zip(*x)]:
        text.table(line, sorted(lexicon))
    return text


def network(variables, tables, times, seed):
    """Tables of ten rows over three variables each: sums that leave a given rest when divided by 3, and one row more. Each row
    stands there as often as `times` says, with another number in a column that no other table has: the same search, more rows."""
    text, dice = Text(), random.Random(seed)
    x = [text.hidden(f"x{i}", "0..2") for i in range(variables)]
    triples = [(a, b, c) for a in range(3) for b in range(3) for c in range(3)]
    for k in range(tables):
        rest = dice.randrange(3)
        rows = [triple for triple in triples if sum(triple) % 3 == rest]
        rows.append(dice.choice([triple for triple in triples if triple not in rows]))
        free = text.hidden(f"free{k}", f"1..{times}")
        text.table(dice.sample(x, 3) + [free], [(*row, number) for row in rows for number in range(1, times + 1)])
    text.divide(x)
    return text


def long_clauses(length, variables, seed):
    """Clauses of three literals at the threshold, each with the same others as well, which the search makes false first."""
    text, dice = Text(), random.Random(seed)
    others = [text.hidden(f"y{i}", "bool") for i in range(length - 3)]
    x = [text.hidden(f"x{i}", "bool") for i in range(variables)]
    for _ in range(round(4.26 * variables)):
        three = [(name, dice.random() < 0.5) for name in dice.sample(x, 3)]
        text.clause(others + [name for name, sign in three if sign], [name for name, sign in three if not sign])
    return text


# A model, and the words it is run with.
MEASURED = {
    "queens_12_all_different": (lambda: silent(queens_of_three(12)), ["-a"]),
    "three_sat_110": (lambda: silent(three_sat(110, 469, 9)), ["-a"]),
    "crossword_5": (lambda: crossword(5, 400, 1), ["-a"]),
    "packing_8": (lambda: silent(packing(8, 8, 5, 5)), ["-a"]),
}
GROWING = {
    "tables_of_10": (lambda: network(26, 32, 1, 1), ["-a"]),
    "tables_of_100": (lambda: network(26, 32, 10, 1), ["-a"]),
    "tables_of_1000": (lambda: network(26, 32, 100, 1), ["-a"]),
    "clauses_of_10": (lambda: long_clauses(10, 80, 3), []),
    "clauses_of_100": (lambda: long_clauses(100, 80, 3), []),
    "clauses_of_1000": (lambda: long_clauses(1000, 80, 3), []),
}
