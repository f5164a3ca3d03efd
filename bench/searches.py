"""Models without a goal: all their solutions are asked for, or as many as are said."""
import random

from texts import Text


def colouring(nodes, edges, colours, seed):
    """A random graph whose neighbours differ."""
    text, dice = Text(), random.Random(seed)
    names = [text.variable(f"c{i}", f"1..{colours}") for i in range(nodes)]
    pairs = [(i, j) for i in range(nodes) for j in range(i)]
    for i, j in dice.sample(pairs, edges):
        text.add(f"int_ne({names[j]},{names[i]})")
    return text


def queens(n):
    """Queens by pairs."""
    text = Text()
    q = [text.variable(f"q{i}", f"1..{n}") for i in range(n)]
    for i in range(n):
        for j in range(i):
            text.add(f"int_ne({q[j]},{q[i]})")
            text.linear("ne", [(1, q[j]), (-1, q[i])], i - j)
            text.linear("ne", [(1, q[j]), (-1, q[i])], j - i)
    return text


def queens_of_three(n):
    """Queens by three all_different."""
    text = Text()
    q = [text.variable(f"q{i}", f"1..{n}") for i in range(n)]
    text.different(q)
    for sign, word in ((1, "u"), (-1, "d")):
        shifted = [text.variable(f"{word}{i}", f"{1 - n}..{2 * n}", False) for i in range(n)]
        for i in range(n):
            text.linear("eq", [(1, shifted[i]), (-1, q[i])], sign * i)
        text.different(shifted)
    return text


def magic_square(n, pairs):
    text = Text()
    total = n * (n * n + 1) // 2
    x = [[text.variable(f"x{i}_{j}", f"1..{n * n}") for j in range(n)] for i in range(n)]
    cells = [name for row in x for name in row]
    if pairs:
        for i, first in enumerate(cells):
            for second in cells[i + 1:]:
                text.add(f"int_ne({first},{second})")
    else:
        text.different(cells)
    lines = x + [list(column) for column in zip(*x)]
    lines += [[x[i][i] for i in range(n)], [x[i][n - 1 - i] for i in range(n)]]
    for line in lines:
        text.linear("eq", [(1, name) for name in line], total)
    return text


def magic_sequence(n):
    """x[i] is how often i stands in x."""
    text = Text()
    x = [text.variable(f"x{i}", f"0..{n - 1}") for i in range(n)]
    for i in range(n):
        ones = []
        for j in range(n):
            b = text.variable(f"b{i}_{j}", "bool", False)
            one = text.variable(f"o{i}_{j}", "0..1", False)
            text.add(f"int_eq_reif({x[j]},{i},{b})")
            text.add(f"bool2int({b},{one})")
            ones.append((1, one))
        text.linear("eq", ones + [(-1, x[i])], 0)
    text.linear("eq", [(i, x[i]) for i in range(n)], n)
    return text


def langford(n):
    """Two of each number k with k numbers between them."""
    text = Text()
    first = [text.variable(f"a{k}", f"1..{2 * n}") for k in range(1, n + 1)]
    second = [text.variable(f"b{k}", f"1..{2 * n}") for k in range(1, n + 1)]
    for k in range(1, n + 1):
        text.linear("eq", [(1, second[k - 1]), (-1, first[k - 1])], k + 1)
    text.different(first + second)
    return text


def all_interval(n):
    """Neighbours of a permutation have different distances."""
    text = Text()
    x = [text.variable(f"x{i}", f"0..{n - 1}") for i in range(n)]
    v = [text.variable(f"v{i}", f"1..{n - 1}", False) for i in range(n - 1)]
    for i in range(n - 1):
        d = text.variable(f"d{i}", f"{1 - n}..{n - 1}", False)
        text.linear("eq", [(1, x[i + 1]), (-1, x[i]), (-1, d)], 0)
        text.add(f"int_abs({d},{v[i]})")
    text.different(x)
    text.different(v)
    return text


def costas(n):
    """A permutation whose differences at each distance differ."""
    text = Text()
    x = [text.variable(f"x{i}", f"1..{n}") for i in range(n)]
    text.different(x)
    for step in range(1, n - 1):
        row = []
        for i in range(n - step):
            d = text.variable(f"d{step}_{i}", f"{1 - n}..{n - 1}", False)
            text.linear("eq", [(1, x[i + step]), (-1, x[i]), (-1, d)], 0)
            row.append(d)
        text.different(row)
    return text


def ruler(marks, length):
    """Marks with different distances, on a ruler of at most this length."""
    text = Text()
    x = [text.variable(f"x{i}", f"0..{length}") for i in range(marks)]
    text.add(f"int_eq({x[0]},0)")
    distances = []
    for i in range(marks):
        for j in range(i):
            d = text.variable(f"d{j}_{i}", f"1..{length}", False)
            text.linear("eq", [(1, x[i]), (-1, x[j]), (-1, d)], 0)
            distances.append(d)
    for i in range(1, marks):
        text.add(f"int_lt({x[i - 1]},{x[i]})")
    text.different(distances)
    return text


def three_sat(variables, clauses, seed):
    text, dice = Text(), random.Random(seed)
    x = [text.variable(f"x{i}", "bool") for i in range(variables)]
    for _ in range(clauses):
        positive, negative = [], []
        for name in dice.sample(x, 3):
            (positive if dice.random() < 0.5 else negative).append(name)
        text.clause(positive, negative)
    return text


def pigeons(n, holes, pairs):
    text = Text()
    x = [text.variable(f"x{i}", f"1..{holes}") for i in range(n)]
    if pairs:
        for i in range(n):
            for j in range(i):
                text.add(f"int_ne({x[j]},{x[i]})")
    else:
        text.different(x)
    return text


def latin_square(n):
    text = Text()
    x = [[text.variable(f"x{i}_{j}", f"1..{n}") for j in range(n)] for i in range(n)]
    for line in x + [list(column) for column in zip(*x)]:
        text.different(line)
    for i in range(1, n):
        text.add(f"int_lt({x[0][i - 1]},{x[0][i]})")
    return text


def quasigroup(n):
    """A latin square whose square of each element is itself, and (a b) (b a) = a, by elements."""
    text = Text()
    x = [[text.variable(f"x{i}_{j}", f"1..{n}") for j in range(n)] for i in range(n)]
    for line in x + [list(column) for column in zip(*x)]:
        text.different(line)
    cells = ",".join(name for row in x for name in row)
    for i in range(n):
        text.add(f"int_eq({x[i][i]},{i + 1})")
        for j in range(n):
            k = text.variable(f"k{i}_{j}", f"1..{n * n}", False)
            text.linear("eq", [(n, x[i][j]), (1, x[j][i]), (-1, k)], n)
            text.add(f"array_var_int_element({k},[{cells}],{i + 1})")
    return text


def subset_sum(terms, seed, target):
    text, dice = Text(), random.Random(seed)
    weights = [dice.randint(1000, 99999) for _ in range(terms)]
    x = [text.variable(f"x{i}", "0..1") for i in range(terms)]
    text.linear("eq", list(zip(weights, x)), int(sum(weights) * target))
    return text


def partition(n):
    """1 to 2n in two halves of equal sums and equal sums of squares."""
    text = Text()
    x = [text.variable(f"x{i}", "0..1") for i in range(2 * n)]
    numbers = range(1, 2 * n + 1)
    text.linear("eq", [(1, name) for name in x], n)
    for power in (1, 2):
        total = sum(k ** power for k in numbers)
        text.linear("eq", [(2 * k ** power, name) for k, name in zip(numbers, x)], total)
    return text


def schur(n, colours):
    """No colour has a, b and a + b."""
    text = Text()
    x = [[text.variable(f"x{i}_{c}", "bool") for c in range(colours)] for i in range(1, n + 1)]
    for row in x:
        text.clause(row, [])
        for c in range(colours):
            for d in range(c):
                text.clause([], [row[c], row[d]])
    for a in range(1, n + 1):
        for b in range(a, n + 1 - a):
            for c in range(colours):
                text.clause([], sorted({x[a - 1][c], x[b - 1][c], x[a + b - 1][c]}))
    return text


def graceful(n):
    """A path whose labels have different distances."""
    text = Text()
    x = [text.variable(f"x{i}", f"0..{n}") for i in range(n + 1)]
    e = [text.variable(f"e{i}", f"1..{n}", False) for i in range(n)]
    for i in range(n):
        d = text.variable(f"d{i}", f"{-n}..{n}", False)
        text.linear("eq", [(1, x[i]), (-1, x[i + 1]), (-1, d)], 0)
        text.add(f"int_abs({d},{e[i]})")
    text.different(x)
    text.different(e)
    return text


def puzzle(words, total, letters):
    """Digits for letters, so that the words add up."""
    text = Text()
    x = {letter: text.variable(letter.lower(), "0..9") for letter in letters}
    factors = dict.fromkeys(letters, 0)
    for sign, word in [(1, word) for word in words] + [(-1, total)]:
        for place, letter in enumerate(reversed(word)):
            factors[letter] += sign * 10 ** place
    text.linear("eq", [(factors[letter], x[letter]) for letter in letters], 0)
    text.different(list(x.values()))
    for word in words + [total]:
        text.add(f"int_ne({x[word[0]]},0)")
    return text


def packing(tasks, width, height, seed):
    """Tasks in a strip, by their time and height."""
    text, dice = Text(), random.Random(seed)
    durations = [dice.randint(1, 4) for _ in range(tasks)]
    heights = [dice.randint(1, 3) for _ in range(tasks)]
    starts = [text.variable(f"s{i}", f"0..{width - durations[i]}") for i in range(tasks)]
    text.cumulative(starts, durations, heights, height)
    return text


def knights_tour(n):
    """The squares of a board in the order in which a knight visits each once, from a corner on."""
    text = Text()
    x = [text.variable(f"x{i}", f"1..{n * n}") for i in range(n * n)]
    squares = [(row, column) for row in range(n) for column in range(n)]
    leaps = [(i + 1, j + 1) for i, (a, b) in enumerate(squares) for j, (c, d) in enumerate(squares) if {abs(a - c), abs(b - d)} == {1, 2}]
    text.add(f"int_eq({x[0]},1)")
    for first, second in zip(x, x[1:]):
        text.table([first, second], leaps)
    text.different(x)
    return text


def lessons(count, days, seed):
    """Lessons behind one another, on the first five days of each week, by the quotient and the rest of what day it is."""
    text, dice = Text(), random.Random(seed)
    starts = [text.variable(f"s{i}", f"0..{days}") for i in range(count)]
    weekdays = [text.variable(f"w{i}", "0..4") for i in range(count)]
    weeks = [text.variable(f"q{i}", f"0..{days // 7}") for i in range(count)]
    for start, weekday, week in zip(starts, weekdays, weeks):
        text.add(f"int_mod({start},7,{weekday})")
        text.add(f"int_div({start},7,{week})")
    for first, second in zip(starts, starts[1:]):
        text.before(first, dice.randint(2, 5), second)
    text.linear("le", [(1, weekday) for weekday in weekdays], 2 * count - 2)
    text.divide(starts)
    return text


def remainders(count, greatest, divisor, seed):
    """A sum of numbers, and one of what a divisor leaves of them; these are searched first."""
    text, dice = Text(), random.Random(seed)
    numbers = [text.variable(f"x{i}", f"0..{greatest}") for i in range(count)]
    rests = [text.variable(f"r{i}", f"0..{divisor - 1}") for i in range(count)]
    for number, rest in zip(numbers, rests):
        text.add(f"int_mod({number},{divisor},{rest})")
    text.linear("eq", [(dice.randint(1, 4), number) for number in numbers], dice.randint(greatest, greatest * count))
    text.linear("eq", [(dice.randint(1, 3), rest) for rest in rests], dice.randint(divisor, divisor * count // 2))
    text.divide(rests)
    text.divide(numbers)
    return text


def doubles(count, greatest, seed):
    """A sum of numbers that are twice others."""
    text, dice = Text(), random.Random(seed)
    halves = [text.variable(f"x{i}", f"0..{greatest}") for i in range(count)]
    numbers = [text.variable(f"y{i}", f"0..{2 * greatest}") for i in range(count)]
    for half, number in zip(halves, numbers):
        text.add(f"int_plus({half},{half},{number})")
    text.linear("eq", [(dice.randint(1, 4), number) for number in reversed(numbers)], 2 * dice.randint(greatest, 2 * greatest))
    for half, number in zip(halves, numbers[1:]):
        text.linear("le", [(1, half), (-1, number)], 3)
    text.divide(numbers)
    return text


def both_signs(kind, count, greatest, divisors, values, seed, order):
    """Sums of numbers, of divisors or factors, and of what a constraint makes of these, all of both signs; they are searched in an order."""
    text, dice = Text(), random.Random(seed)
    names = {letter: [f"{letter}{i}" for i in range(count)] for letter in "xyz"}
    for letter, (low, high) in zip("xyz", ((-greatest, greatest), divisors, values)):
        for name in names[letter]:
            text.variable(name, f"{low}..{high}")
    for x, y, z in zip(*names.values()):
        text.add(f"{kind}({x},{y},{z})")
    for letter, (low, high) in zip("zxy", (values, (-greatest, greatest), divisors)):
        text.linear("eq", [(dice.choice([1, 2, 3, -1, -2]), name) for name in names[letter]], dice.randint(low, high))
    for letter in order:
        text.divide(names[letter])
    return text


# A model, and the words it is run with.
MODELS = {
    "colouring_80": (lambda: colouring(80, 400, 4, 1), ["-n", "20000"]),
    "colouring_90": (lambda: colouring(90, 460, 4, 1), ["-n", "20000"]),
    "colouring_100": (lambda: colouring(100, 470, 4, 2), ["-n", "20000"]),
    "queens_11_pairs": (lambda: queens(11), ["-a"]),
    "queens_12_pairs": (lambda: queens(12), ["-a"]),
    "queens_22_pairs": (lambda: queens(22), []),
    "queens_11_all_different": (lambda: queens_of_three(11), ["-a"]),
    "magic_square_4_pairs": (lambda: magic_square(4, True), ["-n", "1000"]),
    "magic_square_4": (lambda: magic_square(4, False), ["-n", "1000"]),
    "magic_sequence_60": (lambda: magic_sequence(60), ["-a"]),
    "langford_9": (lambda: langford(9), ["-a"]),
    "all_interval_10": (lambda: all_interval(10), ["-a"]),
    "all_interval_11": (lambda: all_interval(11), ["-a"]),
    "costas_9": (lambda: costas(9), ["-a"]),
    "ruler_8_34": (lambda: ruler(8, 34), ["-a"]),
    "three_sat_80": (lambda: three_sat(80, 345, 7), ["-a"]),
    "three_sat_90": (lambda: three_sat(90, 387, 2), ["-a"]),
    "pigeons_10_pairs": (lambda: pigeons(10, 9, True), ["-a"]),
    "pigeons_10": (lambda: pigeons(10, 9, False), ["-a"]),
    "latin_square_6": (lambda: latin_square(6), ["-n", "50000"]),
    "quasigroup_7": (lambda: quasigroup(7), ["-a"]),
    "knights_tour_5": (lambda: knights_tour(5), ["-n", "100"]),
    "subset_sum_22": (lambda: subset_sum(22, 1, 0.5), ["-a"]),
    "partition_10": (lambda: partition(10), ["-a"]),
    "partition_12": (lambda: partition(12), ["-a"]),
    "schur_30_4": (lambda: schur(30, 4), ["-n", "20000"]),
    "graceful_9": (lambda: graceful(9), ["-a"]),
    "graceful_10": (lambda: graceful(10), ["-a"]),
    "donald_gerald": (lambda: puzzle(["DONALD", "GERALD"], "ROBERT", "DONALGERBT"), ["-a"]),
    "packing_6": (lambda: packing(6, 9, 4, 3), ["-a"]),
    "packing_8": (lambda: packing(8, 10, 4, 5), ["-a"]),
    "lessons_7": (lambda: lessons(7, 41, 4), ["-a"]),
    "remainders_6": (lambda: remainders(6, 24, 5, 1), ["-a"]),
    "doubles_6": (lambda: doubles(6, 20, 8), ["-a"]),
    "quotients_of_both_signs_4": (lambda: both_signs("int_div", 4, 20, (-6, 6), (1, 6), 12, "zxy"), ["-a"]),
    "remainders_of_both_signs_4": (lambda: both_signs("int_mod", 4, 12, (-5, 5), (-4, 4), 2, "zyx"), ["-a"]),
    "products_of_both_signs_4": (lambda: both_signs("int_times", 4, 6, (-4, 6), (-12, 12), 14, "xyz"), ["-a"]),
}
