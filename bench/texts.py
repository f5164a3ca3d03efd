"""The text of a model in FlatZinc, as the benchmarks make it."""
import re

NAMES_OF_GECODE = {
    "fzn_cumulative": "cumulatives",
    "fzn_table_int": "gecode_table_int",
    "fzn_regular": "gecode_regular",
    "fzn_global_cardinality": "gecode_global_cardinality",
}


def listed(values):
    return "[" + ",".join(str(value) for value in values) + "]"


class Text:
    """A model that grows line by line. The variables that `divide` names are divided first, in that order of calls; then all
    others in order of declaration, those of integers before those of Booleans, the least value first."""

    def __init__(self):
        self.declarations, self.constraints, self.goal = [], [], "satisfy"
        self.integers, self.booleans, self.parts = [], [], []

    def variable(self, name, kind, output=True):
        self.declarations.append(f"var {kind}: {name}{' :: output_var' if output else ''};")
        (self.booleans if kind == "bool" else self.integers).append(name)
        return name

    def hidden(self, name, kind):
        """A variable that isn't printed."""
        return self.variable(name, kind, False)

    def introduced(self, name, kind):
        """A variable that isn't printed, of which the words of the search say nothing."""
        self.declarations.append(f"var {kind}: {name} :: var_is_introduced;")
        return name

    def add(self, constraint):
        self.constraints.append(f"constraint {constraint};")

    def linear(self, relation, terms, number):
        """The sum of (factor, variable) pairs, and how it relates to a number."""
        self.add(f"int_lin_{relation}({listed(k for k, _ in terms)},{listed(x for _, x in terms)},{number})")

    def total(self, terms, name):
        """The sum of (factor, variable) pairs is a variable."""
        self.linear("eq", list(terms) + [(-1, name)], 0)

    def before(self, first, length, second):
        """The first and a length are at most the second."""
        self.linear("le", [(1, first), (-1, second)], -length)

    def whether_before(self, first, length, second):
        """A Boolean that is true exactly where the first and a length are at most the second."""
        name = self.hidden(f"before_{first}_{second}", "bool")
        self.add(f"int_lin_le_reif([1,-1],[{first},{second}],{-length},{name})")
        return name

    def whether_is(self, name, number):
        """A number that is 1 where a variable is that number, and else 0, as the MiniZinc compiler writes it."""
        truth = self.hidden(f"{name}_is_{number}", "bool")
        one = self.hidden(f"{name}_one_{number}", "0..1")
        self.add(f"int_eq_reif({name},{number},{truth})")
        self.add(f"bool2int({truth},{one})")
        return one

    def hidden_is(self, name, number):
        """The same as `whether_is`, by an element of ones and zeros: `name` is at least 1 and at most `number`."""
        one = self.hidden(f"{name}_mark_{number}", "0..1")
        self.element(name, [int(value == number) for value in range(1, number + 1)], one)
        return one

    def way(self, word, first, second, count, ways):
        """The way between two places of so many, by an index of two dimensions, as the MiniZinc compiler writes it."""
        index = self.hidden(f"i{word}", f"1..{count * count}")
        self.linear("eq", [(count, first), (1, second), (-1, index)], count)
        way = self.hidden(f"w{word}", f"0..{max(ways)}")
        self.element(index, ways, way)
        return way

    def apart(self, first, first_length, second, second_length):
        """One ends before the other begins."""
        names = [self.whether_before(first, first_length, second), self.whether_before(second, second_length, first)]
        self.clause(names, [])
        return names

    def element(self, index, numbers, value):
        self.add(f"array_int_element({index},{listed(numbers)},{value})")

    def table(self, columns, rows):
        self.add(f"fzn_table_int({listed(columns)},{listed(number for row in rows for number in row)})")

    def greatest(self, name, names):
        self.add(f"array_int_maximum({name},{listed(names)})")

    def least(self, name, names):
        self.add(f"array_int_minimum({name},{listed(names)})")

    def different(self, names):
        """fzn-gecode is asked for values alone: by itself it narrows bounds as well."""
        self.add(f"all_different_int({listed(names)}) :: val")

    def cumulative(self, starts, durations, heights, capacity):
        self.add(f"fzn_cumulative({listed(starts)},{listed(durations)},{listed(heights)},{capacity})")

    def regular(self, names, states, symbols, following, start, accepting):
        """An automaton accepts the numbers: `following` has the next state for each state and symbol, 0 where there is none."""
        self.add(f"fzn_regular({listed(names)},{states},{symbols},{listed(following)},{start},{accepting})")

    def counts(self, names, cover, counts):
        """So many of them have each value of the cover."""
        self.add(f"fzn_global_cardinality({listed(names)},{listed(cover)},{listed(counts)})")

    def inverse(self, firsts, seconds):
        """Each list is the inverse of the other, from 1 on."""
        self.add(f"fzn_inverse({listed(firsts)},{listed(seconds)})")

    def clause(self, positive, negative):
        self.add(f"bool_clause({listed(positive)},{listed(negative)})")

    def divide(self, names, pick="input_order", value="indomain_min"):
        """These variables are divided next, by that choice."""
        self.parts.append((list(names), pick, value))

    def search(self):
        named = {name for names, _, _ in self.parts for name in names}
        rest = [[name for name in names if name not in named] for names in (self.integers, self.booleans)]
        parts = self.parts + [(names, "input_order", "indomain_min") for names in rest]
        booleans = set(self.booleans)
        return listed(
            f"{'bool' if names[0] in booleans else 'int'}_search({listed(names)},{pick},{value},complete)"
            for names, pick, value in parts
            if names
        )

    def lines(self):
        solve = f"solve :: seq_search({self.search()}) {self.goal};"
        return "\n".join(self.declarations + self.constraints + [solve]) + "\n"

    def lines_for_gecode(self):
        """The same in the names that fzn-gecode 6.2 has."""
        lines = re.sub(r"fzn_inverse\((\[.*?\]),(\[.*?\])\)", r"inverse_offsets(\1,1,\2,1)", self.lines())
        for ours, theirs in NAMES_OF_GECODE.items():
            lines = lines.replace(f"{ours}(", f"{theirs}(")
        return lines
