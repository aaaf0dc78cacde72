"""The rules of a module that the program has accepted: what reads what, in the same step or over tables."""
import re
from collections import namedtuple

# An expression: the name of a collection, or an operator, the expressions that it is of, and the words behind them.
Part = namedtuple("Part", "name parts words")

PIECE = re.compile(r'#[^\n]*|"(?:\\.|[^"\\\n])*"|\w+|[<>!]?=|\S')
KINDS = ("input", "output", "table", "scratch")
OPERATORS = {"select": 1, "project": 1, "join": 2, "notin": 2, "group": 1, "atleast": 1}
AGGREGATES = ("count", "sum", "min", "max")


def statements(text):
    """The words of each statement, without comments."""
    words = [it for it in PIECE.findall(text) if not it.startswith("#")]
    while ";" in words:
        end = words.index(";")
        yield words[:end]
        words = words[end + 1 :]


def part_at(words, place):
    """The expression at a place, and the place behind it."""
    name = words[place]
    if name not in OPERATORS:
        return Part(name, [], []), place + 1
    parts, place = [], place + 1
    for _ in range(OPERATORS[name]):
        # Over the bracket, and then over the comma.
        part, place = part_at(words, place + 1)
        parts.append(part)
    start = place
    while words[start:place].count("(") >= words[start:place].count(")"):
        place += 1
    return Part(name, parts, words[start : place - 1]), place


class Module:
    """The collections of a module, each with its kind, and the bodies of the rules of each."""

    def __init__(self, text):
        self.kinds, self.bodies = {}, {}
        for words in statements(text):
            if words[0] in KINDS:
                self.kinds[words[1]] = words[0]
            elif words[0] != "module":
                self.bodies.setdefault(words[0], []).append(part_at(words, 2)[0])

    def reached(self, parts, through):
        """The collections that expressions read, by themselves and over the rules of collections of these kinds."""
        found, left = [], [name for part in parts for name in named(part)]
        while left:
            name = left.pop()
            if name not in found:
                found.append(name)
                left += [it for part in self.bodies.get(name, []) if self.kinds[name] in through for it in named(part)]
        return found

    def outputs(self):
        return [it for it, kind in self.kinds.items() if kind == "output"]

    def of_kind(self, names, kind):
        return {it for it in names if self.kinds[it] == kind}

    def read(self, part):
        """The ports that an expression reads in the step in which their rows come."""
        return self.of_kind(self.reached([part], ["scratch"]), "input")

    def kept(self, part):
        """The ports of which rows stay in a table that an expression reads."""
        tables = self.of_kind(self.reached([part], ["scratch"]), "table")
        bodies = [part for table in tables for part in self.bodies.get(table, [])]
        return self.of_kind(self.reached(bodies, ["scratch", "table"]), "input")

    def parts_of(self, output):
        """All expressions behind an output, also those within others."""
        bodies = self.bodies.get(output, [])
        heads = [output, *self.reached(bodies, ["scratch", "table"])]
        return [it for head in heads for body in self.bodies.get(head, []) for it in within(body)]

    def read_and_kept(self, output):
        """The ports whose rows an output compares, as they come, with a table that the same port fills."""
        pairs = [it.parts for it in self.parts_of(output) if len(it.parts) == 2]
        found = [self.read(one) & self.kept(other) | self.kept(one) & self.read(other) for one, other in pairs]
        return sorted(set().union(*found))

    def momentary(self, output):
        """Of the operators behind an output those of which a row may be true for a moment: `notin`, and the
        aggregates of groups."""
        parts = self.parts_of(output)
        words = [word for it in parts if it.name == "group" for word in it.words]
        return ["notin"] * any(it.name == "notin" for it in parts) + [it for it in AGGREGATES if it in words]


def named(part):
    """The collections that stand in an expression."""
    return [name for it in part.parts for name in named(it)] if part.parts else [part.name]


def within(part):
    """An expression, and all that stand in it."""
    return [part] + [inner for it in part.parts for inner in within(it)]
