"""Works out the tables of worked examples in src/ again: python3 worked.py compares them, and prints what differs.

It reads the tables' own texts, and shares nothing with the program: of each linear program it goes through all bases, with
fractions. A basis that shows an answer gives the answer's numbers, and the first of the sums over them that is wide. A row
of a table lists every answer that some basis shows: mostly there is one, and where there are more the program may give any.
A pivot can only be foreseen at the start of a relaxed program, where its column s takes the place of the first row with the
least right side. So such a stop is the one answer of its row, and elsewhere no pivot is thought to be wide.
"""

import itertools
import os
import re
from fractions import Fraction
from math import gcd, lcm

HERE = os.path.dirname(os.path.abspath(__file__))
WIDE = 2**127


# ---- the tables, as far as they have literals

TOKEN = re.compile(r'\s+|//[^\n]*|b"((?:[^"\\]|\\.)*)"|(-?\d[\d_]*)|([A-Za-z_]\w*(?:::\w+)*)|(.)', re.S)


def tokens(text):
    for match in TOKEN.finditer(text):
        string, number, word, mark = match.groups()
        if string is not None:
            yield "text", string.encode().decode("unicode_escape")
        elif number is not None:
            yield "number", int(number.replace("_", ""))
        elif word is not None:
            yield "word", word.split("::")[-1]
        elif mark is not None:
            yield "mark", mark


class Reader:
    def __init__(self, text, names):
        self.rest, self.at, self.names = list(tokens(text)), 0, names

    def peek(self):
        return self.rest[self.at]

    def next(self):
        self.at += 1
        return self.rest[self.at - 1]

    def take(self, mark):
        if self.at < len(self.rest) and self.peek() == ("mark", mark):
            self.at += 1
            return True
        return False

    def items(self, end):
        found = []
        while not self.take(end):
            found.append(self.value())
            self.take(",")
        return found

    def value(self):
        if self.take("&"):
            return self.value()
        if self.take("["):
            return self.items("]")
        if self.take("("):
            return tuple(self.items(")"))
        kind, item = self.next()
        if kind != "word":
            return item
        if self.take("{"):
            fields = {"": item}
            while not self.take("}"):
                name = self.next()[1]
                self.take(":")
                fields[name] = self.value()
                self.take(",")
            return fields
        if self.take("("):
            return {"": item, "of": self.items(")")}
        return self.names.get(item, item)


def constants():
    names = {}
    for file in ("texts.rt", "separations.rt", "floors.rt", "nodes.rt"):
        with open(os.path.join(HERE, "src", file)) as source:
            text = source.read()
        for match in re.finditer(r"^(?:pub\(crate\) )?const (\w+): [^=]*=\s+(.*?);\n(?=\n|$|(?:pub|const|#|//))", text, re.S | re.M):
            names[match.group(1)] = Reader(match.group(2), names).value()
    return names


# ---- models, by docs/FORMATS.md, as far as the texts use it

class Model:
    def __init__(self, text, part):
        self.kinds, self.rows, self.columns, self.integer = {}, {}, [], set()
        self.sides, self.ranges, self.lower, self.upper = {}, {}, {}, {}
        self.maximise, section, integer, bounded = False, None, False, set()
        for line in text.splitlines():
            words = line.split()
            if not line.startswith(" "):
                section = words[0]
                self.maximise |= words[1:] == ["MAX"]
            elif section == "ROWS":
                self.kinds[words[1]] = words[0]
                self.rows[words[1]] = {}
            elif section == "COLUMNS" and words[1] == "'MARKER'":
                integer = words[2] == "'INTORG'"
            elif section == "COLUMNS":
                if words[0] not in self.columns:
                    self.columns.append(words[0])
                    self.lower[words[0]], self.upper[words[0]] = Fraction(0), None
                    if integer:
                        self.integer.add(words[0])
                for row, number in zip(words[1::2], words[2::2]):
                    if Fraction(number):
                        self.rows[row][words[0]] = Fraction(number)
            elif section in ("RHS", "RANGES"):
                kept = self.sides if section == "RHS" else self.ranges
                for row, number in zip(words[1::2], words[2::2]):
                    kept[row] = Fraction(number)
            elif section == "BOUNDS":
                kind, column = words[0], words[2]
                bounded.add(column)
                if kind in ("UP", "FX"):
                    self.upper[column] = Fraction(words[3])
                if kind in ("LO", "FX"):
                    self.lower[column] = Fraction(words[3])
                if kind in ("FR", "MI"):
                    self.lower[column] = None
        for column in self.integer - bounded:
            self.upper[column] = Fraction(1)
        head, *others = part.splitlines()
        first = int(head.split()[1])
        self.part = {column: first for column in self.columns}
        self.part.update((line.split()[0], int(line.split()[1])) for line in others)
        self.blocks = max(self.part.values(), default=0)
        self.scale_rows()

    def scale_rows(self):
        self.two_sided, cost = [], None
        for name, kind in self.kinds.items():
            terms, side = self.rows[name], self.sides.get(name, Fraction(0))
            if kind == "N":
                if cost is None:
                    cost = (terms, -side)
                continue
            width = self.ranges.get(name)
            low = side if kind in "GE" else side - abs(width) if width is not None else None
            high = side if kind in "LE" else side + abs(width) if width is not None else None
            if kind == "E" and width is not None:
                low, high = min(side, side + width), max(side, side + width)
            ten = ten_of(list(terms.values()) + [side for side in (low, high) if side is not None])
            self.two_sided.append(({c: int(t * ten) for c, t in terms.items()},
                                   None if low is None else int(low * ten), None if high is None else int(high * ten)))
        terms, constant = cost
        self.scale = ten_of(list(terms.values()) + [constant])
        self.sign = -1 if self.maximise else 1
        self.constant = int(constant * self.scale)
        self.cost = {c: self.sign * int(t * self.scale) for c, t in terms.items()}

    def of(self, part):
        return [c for c in self.columns if self.part[c] == part]

    def cost_of(self, part):
        return [self.cost.get(c, 0) for c in self.of(part)]

    def inequalities(self, part):
        """Triples of the numbers at the part's own columns, at the master's, and the right side."""
        found = []

        def add(terms, side):
            own = [terms.get(c, 0) for c in self.of(part)]
            master = [terms.get(c, 0) for c in self.of(0)] if part else [0] * len(self.of(0))
            found.append((own, master, side))

        for terms, low, high in self.two_sided:
            if max((self.part[c] for c in terms), default=0) == part:
                if high is not None:
                    add(terms, high)
                if low is not None:
                    add({c: -t for c, t in terms.items()}, -low)
        for column in self.of(part):
            for bound, sign in ((self.upper[column], 1), (self.lower[column], -1)):
                if bound is not None and column not in self.integer:
                    add({column: sign * bound.denominator}, sign * bound.numerator)
        return found


def ten_of(numbers):
    ten = 1
    while any((number * ten).denominator > 1 for number in numbers):
        ten *= 10
    return ten


# ---- sums

def is_wide(*numbers):
    return any(abs(number) >= WIDE for number in numbers)


def goes_wide(pairs):
    total = 0
    for a, b in pairs:
        total += a * b
        if is_wide(a * b, total):
            return True
    return False


def dot(a, b):
    return sum(x * y for x, y in zip(a, b))


def entries(numbers):
    return [(n, number) for n, number in enumerate(numbers) if number]


# ---- bases of `minimise cost z, rows z <= rhs` over variables of either sign, each the difference of two columns

class Basis:
    """A basis, its primitive rows and its objective row; `relaxed` with a column s that is subtracted in each row."""

    def __init__(self, rows, rhs, cost, relaxed, chosen, columns, inverse):
        self.chosen, self.structural = chosen, len(columns) - len(rows)
        self.rows = []
        for place, multipliers in enumerate(inverse):
            multipliers = whole(multipliers)
            row = [dot(multipliers, column) for column in columns]
            self.rows.append((row, dot(multipliers, rhs)))
        if relaxed:
            costs = [0] * (self.structural - 1) + [1] + [0] * len(rows)
        else:
            costs = [c for number in cost for c in (number, -number)] + [0] * len(rows)
        prices = [-sum(costs[c] * inverse[place][row] for place, c in enumerate(chosen)) for row in range(len(rows))]
        numbers = whole([Fraction(1)] + prices)
        self.d, self.y = numbers[0], numbers[1:]
        self.objective = [self.d * costs[j] + dot(self.y, column) for j, column in enumerate(columns)]

    def has_point(self):
        return all(side >= 0 for _, side in self.rows)

    def is_least(self):
        return self.has_point() and all(number >= 0 for number in self.objective)

    def falling(self):
        """The columns along which the cost falls without end."""
        if not self.has_point():
            return []
        return [j for j, number in enumerate(self.objective) if number < 0 and all(row[j] <= 0 for row, _ in self.rows)]

    def basic(self):
        found = [(c, row[c], side, row) for c, (row, side) in zip(self.chosen, self.rows) if c < self.structural]
        return sorted(found, key=lambda item: item[0])

    def wide_den(self, along=None):
        common = 1
        for place, (_, number, _, _) in enumerate(self.basic()):
            common = lcm(common, number)
            if is_wide(common):
                return place
        for place, (_, number, side, row) in enumerate(self.basic()):
            more = [side] if along is None else [side, row[along]]
            if is_wide(*[n * (common // number) for n in more]):
                return place
        return None

    def values(self, variables):
        """The variables' numbers, and the number of s where there is one."""
        z = [Fraction(0)] * self.structural
        for column, number, side, _ in self.basic():
            z[column] = Fraction(side, number)
        return [z[2 * j] - z[2 * j + 1] for j in range(variables)], z[2 * variables:]

    def direction(self, column, variables):
        d = [Fraction(0)] * self.structural
        if column < self.structural:
            d[column] = Fraction(1)
        for basic, number, _, row in self.basic():
            d[basic] = Fraction(-row[column], number)
        return whole([d[2 * j] - d[2 * j + 1] for j in range(variables)])


def whole(numbers):
    common = lcm(*[Fraction(number).denominator for number in numbers])
    numbers = [int(number * common) for number in numbers]
    divisor = gcd(*numbers)
    return [number // divisor for number in numbers] if divisor else numbers


def inverse_of(columns):
    size = len(columns)
    table = [[Fraction(columns[j][i]) for j in range(size)] + [Fraction(i == j) for j in range(size)] for i in range(size)]
    for j in range(size):
        pivot = next((i for i in range(j, size) if table[i][j]), None)
        if pivot is None:
            return None
        table[j], table[pivot] = table[pivot], table[j]
        table[j] = [number / table[j][j] for number in table[j]]
        for i in range(size):
            if i != j and table[i][j]:
                factor = table[i][j]
                table[i] = [a - factor * b for a, b in zip(table[i], table[j])]
    return [row[size:] for row in table]


def bases(rows, rhs, cost, relaxed):
    count = len(rows)
    columns = []
    for j in range(len(cost)):
        columns += [[row[j] for row in rows], [-row[j] for row in rows]]
    if relaxed:
        columns.append([-1] * count)
    columns += [[int(i == j) for i in range(count)] for j in range(count)]
    for chosen in itertools.combinations(range(len(columns)), count):
        if any(2 * j in chosen and 2 * j + 1 in chosen for j in range(len(cost))):
            continue
        inverse = inverse_of([columns[c] for c in chosen])
        if inverse is not None:
            yield Basis(rows, rhs, cost, relaxed, chosen, columns, inverse)


def first_pivot(rows, rhs, variables):
    """The wide place where s enters a relaxed program, if there is one."""
    if all(side >= 0 for side in rhs):
        return None
    enters = rhs.index(min(rhs))
    for other in range(len(rows)):
        # Both rows have -1 at s: the other one less the entering one.
        if other != enters and is_wide(rhs[other] - rhs[enters], *[a - b for a, b in zip(rows[other], rows[enters])]):
            return {"": "Pivot", "row": other, "pivot_row": enters, "column": 2 * variables}
    return {"": "Pivot", "row": len(rows), "pivot_row": enters, "column": 2 * variables} if is_wide(*rhs) else None


def stop(kind, **fields):
    return {"": "Stop", "of": [{"": kind, **fields}]}


# ---- what the tasks come to

def cut_of(model, block, mu, raw):
    inequalities = model.inequalities(block)
    alpha = [dot(mu, [master[j] for _, master, _ in inequalities]) for j in range(len(model.of(0)))]
    beta = dot(mu, [side for _, _, side in inequalities])
    divisor = gcd(raw, beta, *alpha)
    numbers = {"": "CutNumbers", "alpha": entries([a // divisor for a in alpha]), "p0": raw // divisor, "beta": beta // divisor,
               "gcd": divisor, "mu": entries(mu)}
    sums = [[(m, own[j]) for m, (own, _, _) in zip(mu, inequalities)] for j in range(len(model.of(block)))]
    sums += [[(m, master[j]) for m, (_, master, _) in zip(mu, inequalities)] for j in range(len(model.of(0)))]
    sums += [[(m, side) for m, (_, _, side) in zip(mu, inequalities)]]
    products = [raw, beta] + alpha + [raw * c for c in model.cost_of(block)]
    if any(goes_wide(pairs) for pairs in sums) or is_wide(*products):
        return stop("Fold", list=7, at=0)
    return {"": "Cut", "of": [numbers]}


def fill_of(model, case, values):
    block, den, cost = case["block"], case["den"], case["mode"] == "Cost"
    times = lcm(*[value.denominator for value in values]) if values else 1
    y = [int(value * times) for value in values]
    if is_wide(den * times):
        return stop("Fold", list=4, at=block)
    for n, (own, master, side) in enumerate(model.inequalities(block)):
        a = [(t, x) for t, x in zip(master, case["x"])]
        b = [(w, v) for w, v in zip(own, y)]
        both = [(times, sum(t * x for t, x in a)), (1, sum(w * v for w, v in b))]
        if goes_wide(a) or goes_wide(b) or goes_wide(both) or is_wide(side * den * times):
            return stop("Fold", list=5, at=n)
    if cost:
        if goes_wide(zip(model.cost_of(block), y)) or is_wide(case["eta"][block - 1] * times):
            return stop("Fold", list=6, at=block)
    return {"": "Fill", "times": times, "y": y}


def separation(case):
    model, block, den = Model(case["model"], case["part"]), case["block"], case["den"]
    inequalities = model.inequalities(block)
    for n, (_, master, side) in enumerate(inequalities):
        if goes_wide([(den, side)] + [(-t, x) for t, x in zip(master, case["x"])]):
            return [stop("Build", row=n)]
    rows = [own for own, _, _ in inequalities]
    rhs = [den * side - dot(master, case["x"]) for _, master, side in inequalities]
    if case["mode"] == "Cost":
        rows, rhs = rows + [model.cost_of(block)], rhs + [case["eta"][block - 1]]
    variables = len(model.of(block))
    pivot = first_pivot(rows, rhs, variables)
    if pivot is not None:
        return [{"": "Stop", "of": [pivot]}]
    found = []
    for basis in bases(rows, rhs, [0] * variables, True):
        if not basis.is_least():
            continue
        values, (rise,) = basis.values(variables)
        if basis.wide_den() is not None:
            found.append(stop("Den", place=basis.wide_den()))
        elif rise > 0:
            mu = basis.y[:len(inequalities)]
            found.append(cut_of(model, block, mu, basis.y[-1] if case["mode"] == "Cost" else 0))
        else:
            found.append(fill_of(model, case, values))
    return found


def floor(case):
    model, block = Model(case["model"], case["part"]), case["block"]
    rows = [own for own, _, _ in model.inequalities(block)]
    variables, found = len(model.of(block)), []
    for basis in bases(rows, [0] * len(rows), model.cost_of(block), False):
        for column in [None] if basis.is_least() else basis.falling():
            if basis.wide_den(column) is not None:
                found.append(stop("Den", place=basis.wide_den(column)))
            elif column is None:
                found.append(cut_of(model, block, basis.y, basis.d))
            else:
                found.append(ray_of(model, block, basis.direction(column, variables)))
    return found


def ray_of(model, block, d):
    at = dict(zip(model.of(block), d))
    sums = [terms for terms, _, _ in model.two_sided] + [model.cost]
    for n, terms in enumerate(sums):
        if goes_wide([(terms[c], at.get(c, 0)) for c in model.columns if c in terms]):
            return stop("Fold", list=9, at=n)
    return {"": "Ray", "of": [d]}


def node(case):
    model, cost = Model(case["model"], case["part"]), case["mode"] == "Cost"
    masters, blocks = len(model.of(0)), model.blocks
    integers = [j for j, c in enumerate(model.of(0)) if c in model.integer]
    unit = lambda j, number: [number if k == j else 0 for k in range(masters + blocks)]
    rows, rhs = [], []
    for own, _, side in model.inequalities(0):
        rows, rhs = rows + [own + [0] * blocks], rhs + [side]
    for j, low, high in zip(integers, case["lower"], case["upper"]):
        rows, rhs = rows + [unit(j, 1), unit(j, -1)], rhs + [high, -low]
    for cut in case["cuts"]:
        rows = rows + [cut["alpha"] + [-cut["p0"] if b == cut["block"] else 0 for b in range(1, blocks + 1)]]
        rhs = rhs + [cut["beta"]]
    costs = model.cost_of(0) + [1] * blocks if cost else [0] * (masters + blocks)
    variables = masters + blocks
    pivot = first_pivot(rows, rhs, variables)
    if pivot is not None:
        return [{"": "Stop", "of": [pivot]}]
    found = []
    for basis in bases(rows, rhs, costs, False):
        if not basis.is_least():
            continue
        if basis.wide_den() is not None:
            found.append(stop("Den", place=basis.wide_den()))
            continue
        values, _ = basis.values(variables)
        leaf = leaf_of(rows, rhs, costs, basis.y, basis.d) if cost else "None"
        found.append(leaf if leaf != "None" and leaf[""] == "Stop" else node_answer(model, case, integers, values, leaf))
    if not found:
        for basis in bases(rows, rhs, costs, True):
            if basis.is_least():
                leaf = leaf_of(rows, rhs, costs, basis.y, 0)
                found.append(leaf if leaf[""] == "Stop" else {"": "Empty", "leaf": leaf})
    return found


def leaf_of(rows, rhs, costs, y, by):
    sums = [[(n, row[j]) for n, row in zip(y, rows)] for j in range(len(costs))] + [list(zip(y, rhs))]
    if any(goes_wide(pairs) for pairs in sums) or is_wide(*[by * c for c in costs]):
        return stop("Fold", list=8, at=0)
    return {"": "LeafNumbers", "lambda": entries(y), "delta": by, "bound": -dot(y, rhs)}


def node_answer(model, case, integers, values, leaf):
    wrapped = leaf if leaf == "None" else {"": "Some", "of": [leaf]}
    for j in integers:
        if values[j].denominator > 1:
            return {"": "Split", "position": j, "value": values[j].__floor__(), "leaf": wrapped}
    den = lcm(*[value.denominator for value in values]) if values else 1
    numbers = [int(value * den) for value in values]
    x, eta = numbers[:len(model.of(0))], numbers[len(model.of(0)):]
    for n, (own, _, side) in enumerate(model.inequalities(0)):
        if goes_wide(zip(own, x)) or is_wide(side * den):
            return stop("Fold", list=3, at=n)
    if case["mode"] == "Cost":
        pairs = list(zip(model.cost_of(0), x)) + [(1, number) for number in eta]
        if goes_wide(pairs):
            return stop("Fold", list=1, at=0)
        if goes_wide([(model.sign, sum(a * b for a, b in pairs)), (model.constant, den)]):
            return stop("Fold", list=2, at=0)
        if is_wide(model.scale * den):
            return stop("Fold", list=2, at=1)
    return {"": "Point", "den": den, "x": x, "eta": eta, "leaf": wrapped}


def distinct(answers):
    found = []
    for answer in answers:
        if answer not in found:
            found.append(answer)
    return found


def main():
    tables = constants()
    count, wrong = 0, 0
    for table, worked in (("SEPARATIONS", separation), ("FLOORS", floor), ("NODES", node)):
        for at, case in enumerate(tables[table]):
            count += 1
            answers = distinct(worked(case))
            wanted = case["wanted"]
            if not answers or sorted(map(repr, map(plain, answers))) != sorted(map(repr, map(plain, wanted))):
                wrong += 1
                print(f"{table} at {at}:")
                for answer in answers:
                    print(f"    {rust(answer)}")
    print(f"{count} rows, {wrong} of them otherwise")
    return 1 if wrong else 0


def plain(answer):
    if isinstance(answer, dict):
        return sorted((key, plain(value)) for key, value in answer.items())
    if isinstance(answer, (list, tuple)):
        return [plain(value) for value in answer]
    return answer


def rust(answer):
    if isinstance(answer, dict):
        if "of" in answer:
            return f"{answer['']}({', '.join(map(rust, answer['of']))})"
        return f"{answer['']} {{ {', '.join(f'{key}: {rust(value)}' for key, value in answer.items() if key)} }}"
    if isinstance(answer, list):
        return f"&[{', '.join(map(rust, answer))}]"
    if isinstance(answer, tuple):
        return f"({', '.join(map(rust, answer))})"
    return str(answer)


if __name__ == "__main__":
    raise SystemExit(main())
