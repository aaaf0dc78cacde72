"""What is behind a fault of a module (docs/modules.md, Checks): which name, which column, which part of a rule."""
import re

from causes import lacking, listed
from expected import parts_of

MOST = {"columns": 8, "input": 8, "output": 8, "collections": 32, "rules": 64}

# The most of a part that is shown.
WIDTH = 60


class Faults:
    """What is wrong with the collections and rules of a module, as sentences."""

    def __init__(self, module, data):
        self.module, self.data = module, data
        self.collections = {it.name: it for it in reversed(module.collections)}

    def shown(self, part):
        """A part as it is written, on one line."""
        text = re.sub(r"\s+", " ", self.data[part.start : part.end].decode(errors="replace"))
        return text if len(text) <= WIDTH else f"{text[:WIDTH]} .."

    def names(self, part):
        """The collections that a part names."""
        return [it.gives[0] for it in parts_of(part) if not it.operator]

    def of_kinds(self, *kinds):
        return [it.name for it in self.module.collections if it.kind in kinds]

    # ---- how many there are, and names

    def too_many(self, collection, number):
        kind = collection.kind
        before = sum(it.kind == kind for it in self.module.collections[:number])
        if len(collection.columns) > MOST["columns"]:
            yield f"{collection.name} has {len(collection.columns)} columns, and {MOST['columns']} are the most"
        elif number > MOST["collections"]:
            yield f"this is collection {number}, and {MOST['collections']} are the most"
        elif kind in MOST and before > MOST[kind]:
            yield f"this is {kind} {before}, and {MOST[kind]} are the most"

    def too_many_of_rule(self, _, number):
        if number > MOST["rules"]:
            yield f"this is rule {number}, and {MOST['rules']} are the most"

    def twice(self, collection, number):
        if collection.name in [it.name for it in self.module.collections[: number - 1]]:
            yield f"an earlier collection is called {collection.name} too"
        for name in repeated(collection.columns):
            yield f"{collection.name} has the column {name} twice"

    def unknown(self, rule, _):
        heads, readable = self.of_kinds("output", "table", "scratch"), self.of_kinds("input", "table", "scratch")
        if rule.head not in heads:
            is_input = rule.head in readable
            yield f"{rule.head} is an input, and what it holds comes from outside" if is_input else lacking("the module", "output, table or scratch", rule.head, heads)
        for name in dict.fromkeys(self.names(rule.body)):
            if name in readable:
                continue
            yield f"{name} is an output, which no rule reads" if name in heads else lacking("the module", "input, table or scratch", name, readable)

    # ---- columns

    def columns(self, rule, _):
        """What is wrong with the columns of a rule's parts, and else of its body and its head."""
        told = [it for part in parts_of(rule.body) for it in self.columns_told(part)]
        body, head = self.columns_of(rule.body), self.collections[rule.head].columns
        if not told and len(body) != len(head):
            told = [f"the body has {counted(body)} ({', '.join(body)}), and {rule.head} has {len(head)} ({', '.join(head)})"]
        return told

    def columns_of(self, part):
        if not part.operator:
            return self.collections[part.gives[0]].columns
        if part.gives or part.operator == "atleast":
            return part.gives
        left = self.columns_of(part.parts[0])
        taken = [name for side, name in part.needs if side == 1]
        return left + [it for it in self.columns_of(part.parts[1]) if it not in taken] if part.operator == "join" else left

    def columns_told(self, part):
        if not part.operator:
            return
        for side, name in dict.fromkeys(part.needs):
            if name not in (known := self.columns_of(part.parts[side])):
                yield lacking(self.shown(part.parts[side]), "column", name, known)
        for name in repeated([it for side, it in part.needs if side == 1]):
            yield f"the column {name} of {self.shown(part.parts[1])} stands in two pairs"
        columns = self.columns_of(part)
        for name in repeated(columns):
            cure = f": give one of them another name before, by project(.., {name} as ..)" if part.operator == "join" else ""
            yield f"{self.shown(part)} has {name} twice{cure}"
        if len(columns) > MOST["columns"]:
            yield (f"{self.shown(part)} has {counted(columns)}, and {MOST['columns']} are the most, also where only some are "
                   f"taken of it: {', '.join(columns)}; leave out some before, by project")
        if not columns:
            yield f"{self.shown(part)} has no column: it wants a key"

    # ---- what reads what

    def reads(self, name):
        """The collections that the rules of one name."""
        return [it for rule in self.module.rules if rule.head == name for it in self.names(rule.body)]

    def way(self, names, wanted):
        """Names of collections that read one another, from one of some to the wanted one, or nothing."""
        ways = {it: [it] for it in names}
        for name in (found := list(ways)):
            new = [it for it in dict.fromkeys(self.reads(name)) if it not in ways]
            ways.update({it: ways[name] + [it] for it in new})
            found += new
        return ways.get(wanted)

    def recursive(self, rule, _):
        way = self.way(self.names(rule.body), rule.head)
        yield f"{rule.head} reads itself: {' reads '.join([rule.head, *way])}"

    def ports(self, part):
        """The ports that a part reads, also through scratches."""
        found = list(dict.fromkeys(self.names(part)))
        for name in found:
            if self.collections[name].kind == "scratch":
                found += [it for it in dict.fromkeys(self.reads(name)) if it not in found]
        return [it for it in found if self.collections[it].kind == "input"]

    def momentary_mix(self, rule, _):
        for part in parts_of(rule.body):
            sides = [self.ports(it) for it in part.parts]
            if part.operator in ("group", "atleast") and sides[0]:
                yield f"{self.shown(part)} is over {port(sides[0])}: keep these rows in a table, and take that"
            elif part.operator == "join" and all(sides):
                yield f"in {self.shown(part)} both sides have {port(sides[0] + sides[1])}: keep one of them in a table"
            elif part.operator == "notin" and sides[1]:
                yield f"the right side of {self.shown(part)} has {port(sides[1])}: keep these rows in a table, and take that"

    def mixed_scratch(self, rule, _):
        others = [number for number, it in enumerate(self.module.rules, 1) if it.head == rule.head and self.ports(it.body)]
        yield f"rule {others[0]} gives {rule.head} what comes in this step, and this one reads tables alone"

    def told(self, kind, place, number):
        of_kind = {
            "TooMany": self.too_many if place == "collection" else self.too_many_of_rule, "Twice": self.twice,
            "Unknown": self.unknown, "Columns": self.columns, "Recursive": self.recursive,
            "MomentaryMix": self.momentary_mix, "MixedScratch": self.mixed_scratch,
        }
        entries = self.module.collections if place == "collection" else self.module.rules
        return of_kind[kind](entries[number - 1], number)


def repeated(names):
    return [it for it in dict.fromkeys(names) if names.count(it) > 1]


def counted(columns):
    return f"{len(columns)} column{'s' * (len(columns) != 1)}"


def port(names):
    return f"what comes in this step ({listed(dict.fromkeys(names))})"
