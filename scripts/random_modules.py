"""Random modules of all operators, without a fault that their check finds: expressions up to some operators deep,
over ports, tables and scratches, each taken after those that it reads."""
from collections import namedtuple

# An expression: its text, its columns, and whether it reads a port.
Part = namedtuple("Part", "text columns is_momentary")

# A collection of a module.
Collection = namedtuple("Collection", "kind name columns is_momentary")

# What a part may read: anything, at least one port, or tables alone.
ANY, PORT, KEPT = "any", "port", "kept"

# The least and the most columns of a collection, and the most of a part of a join.
LEAST, WIDEST, PART_COLUMNS = 2, 3, 3

# How often a join or a notin has no pairs, so that all rows of a side have one key, and how often what a notin lacks
# is a join.
PRODUCTS, OF_JOINS = 0.15, 0.25

OPERATORS = {"select": 2, "project": 3, "join": 4, "notin": 3, "group": 5, "atleast": 2}
COMPARISONS = ["=", "!=", "!=", "!=", "<", "<=", "<=", ">", ">=", ">="]
TEXTS = ["a", "b", "ab"]
LARGE = [2**63 - 1, -(2**63), 2**62]


def value(chance):
    """A value of a column: mostly a small number, so that rows agree."""
    kind = chance.random()
    if kind < 0.04:
        return chance.choice(LARGE)
    return chance.choice(TEXTS) if kind < 0.12 else min(chance.randrange(-1, 6), chance.randrange(-1, 6))


def written(it):
    return f'"{it}"' if isinstance(it, str) else str(it)


class RandomModule:
    """A module, whose ports are given or made."""

    def __init__(self, chance, name, depth, ports=None):
        self.chance, self.name, self.depth, self.names = chance, name, depth, 0
        self.collections, self.rules = [], []
        for columns in ports or [self.fresh(self.width()) for _ in range(chance.randint(1, 3))]:
            self.collect("input", f"p{len(self.collections)}", columns, True)
        for number in range(chance.randint(1, 3)):
            self.table(f"t{number}")
        for number in range(chance.randint(0, 2)):
            self.scratch(f"s{number}")
        for number in range(chance.randint(1, 3)):
            self.output(f"o{number}")

    @property
    def text(self):
        lines = [f"module {self.name};"]
        lines += [f"{it.kind} {it.name}({', '.join(it.columns)});" for it in self.collections]
        return "".join(f"{line}\n" for line in lines + self.rules)

    def of_kind(self, kind):
        return [it for it in self.collections if it.kind == kind]

    def width(self):
        return self.chance.randint(LEAST, WIDEST)

    def fresh(self, count):
        """Names of columns that stand nowhere else in the module."""
        self.names += count
        return [f"{self.name}{self.names - it}" for it in range(count, 0, -1)]

    def collect(self, kind, name, columns, is_momentary):
        self.collections.append(Collection(kind, name, columns, is_momentary))

    def table(self, name):
        """Takes in what comes at a port, and now and then what a rule makes of what stands before."""
        columns = self.fresh(self.width())
        bodies = [self.body(columns, PORT, self.chance.choice([0, 0, 0, 1]))]
        if self.of_kind("table") and self.chance.random() < 0.5:
            bodies.append(self.body(columns, ANY, self.chance.randint(1, self.depth)))
        self.head("table", name, columns, bodies, False)

    def scratch(self, name):
        """Has rules over tables alone, or rules that all read ports."""
        columns, reads = self.fresh(self.width()), self.chance.choice([PORT, KEPT, KEPT])
        bodies = [self.body(columns, reads, self.depth) for _ in range(self.chance.randint(1, 2))]
        self.head("scratch", name, columns, bodies, reads == PORT)

    def output(self, name):
        columns, count = self.fresh(self.width()), self.chance.choice([1, 1, 2, 3])
        reads = [self.chance.choice([ANY, KEPT]) for _ in range(count)]
        self.head("output", name, columns, [self.body(columns, it, self.depth) for it in reads], False)

    def head(self, kind, name, columns, bodies, is_momentary):
        self.collect(kind, name, columns, is_momentary)
        self.rules += [f"{name} <= {it};" for it in bodies]

    def body(self, columns, reads, depth):
        """The text of an expression with as many columns as its head."""
        part = self.part(reads, depth)
        if len(part.columns) == len(columns):
            return part.text
        return self.renamed(part, len(columns)).text

    def renamed(self, part, count):
        """So many columns of a part, under names of their own."""
        few = count > len(part.columns)
        chosen = self.chance.choices(part.columns, k=count) if few else self.chance.sample(part.columns, count)
        names = self.fresh(count)
        items = ", ".join(f"{old} as {new}" for old, new in zip(chosen, names))
        return Part(f"project({part.text}, {items})", names, part.is_momentary)

    def narrow(self, part):
        return part if len(part.columns) <= PART_COLUMNS else self.renamed(part, PART_COLUMNS)

    def part(self, reads, depth):
        """An expression up to so many operators deep."""
        if depth == 0 or self.chance.random() < 0.1:
            return self.named(reads)
        kinds = [it for it in OPERATORS if reads != PORT or it not in ("group", "atleast")]
        if not self.of_kind("table"):
            kinds = ["select", "project"]
        kind = self.chance.choices(kinds, [OPERATORS[it] for it in kinds])[0]
        return getattr(self, kind)(reads, depth - 1)

    def named(self, reads):
        found = [it for it in self.collections if it.kind != "output"]
        if reads == PORT:
            found = [it for it in found if it.is_momentary]
        if reads == KEPT:
            found = [it for it in found if not it.is_momentary]
        it = self.chance.choice(found)
        return Part(it.name, it.columns, it.is_momentary)

    def select(self, reads, depth):
        part = self.part(reads, depth)
        return Part(f"select({part.text}, {self.predicate(part.columns, 2)})", part.columns, part.is_momentary)

    def predicate(self, columns, depth):
        kind = self.chance.random()
        if depth and kind < 0.3:
            joined = self.chance.choice(["and", "or"])
            return f"({self.predicate(columns, depth - 1)} {joined} {self.predicate(columns, depth - 1)})"
        if depth and kind < 0.4:
            return f"not {self.predicate(columns, depth - 1)}"
        right = self.chance.choice(columns) if kind > 0.8 else written(value(self.chance))
        return f"{self.chance.choice(columns)} {self.chance.choice(COMPARISONS)} {right}"

    def project(self, reads, depth):
        part = self.part(reads, depth)
        return self.renamed(part, self.chance.randint(1, min(len(part.columns) + 1, WIDEST)))

    def sides(self, reads, depth):
        """What the parts of a join may read: one of them tables alone, in any order."""
        sides = [self.part(reads, depth), self.part(KEPT, self.chance.randint(0, depth))]
        self.chance.shuffle(sides)
        return map(self.narrow, sides)

    def pairs(self, left, right, least):
        count = min(self.chance.randint(least, 2), len(right.columns))
        return list(zip(self.chance.choices(left.columns, k=count), self.chance.sample(right.columns, count)))

    def join(self, reads, depth):
        left, right = self.sides(reads, depth)
        if set(left.columns) & set(right.columns):
            right = self.renamed(right, len(right.columns))
        pairs = self.pairs(left, right, 0 if self.chance.random() < PRODUCTS else 1)
        paired = [it for _, it in pairs]
        columns = left.columns + [it for it in right.columns if it not in paired]
        words = [left.text, right.text] + [f"{one} = {other}" for one, other in pairs]
        return Part(f"join({', '.join(words)})", columns, left.is_momentary or right.is_momentary)

    def notin(self, reads, depth):
        left, right = self.part(reads, depth), self.narrow(self.lacked(depth))
        pairs = self.pairs(left, right, 0 if self.chance.random() < PRODUCTS else self.chance.randint(1, 2))
        words = [left.text, right.text] + [f"{one} = {other}" for one, other in pairs]
        return Part(f"notin({', '.join(words)})", left.columns, left.is_momentary)

    def lacked(self, depth):
        """What a notin lacks: tables alone, and a join more often than any other."""
        is_join = depth and self.chance.random() < OF_JOINS
        return self.join(KEPT, depth - 1) if is_join else self.part(KEPT, depth)

    def keys(self, part, least):
        return self.chance.sample(part.columns, self.chance.randint(least, min(2, len(part.columns))))

    def group(self, _, depth):
        part = self.part(KEPT, depth)
        keys, kind, new = self.keys(part, 0), self.chance.choice(["count", "sum", "min", "max"]), self.fresh(1)
        agg = kind if kind == "count" else f"{kind}({self.chance.choice(part.columns)})"
        return Part(f"group({part.text}, [{', '.join(keys)}], {agg} as {new[0]})", keys + new, False)

    def atleast(self, _, depth):
        part = self.part(KEPT, depth)
        keys = self.keys(part, 1)
        return Part(f"atleast({part.text}, [{', '.join(keys)}], {self.chance.randint(1, 3)})", keys, False)
