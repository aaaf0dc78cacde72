"""The kinds of docs/never-varies.md that the form of a component shows, for a stream that warns and wasn't seen to vary."""
from module_rules import AGGREGATES, Module, within
from streams import Wiring, is_bad

# The number of each on the page, and its words there.
KINDS = {
    1: "a count that has to reach a number",
    2: "a greatest that has to exceed a number, or a least to fall below one",
    3: "a sum of what is never negative that has to exceed a number",
    4: "the keys of a group",
    5: "what varies is left out by a component behind",
    6: "a case and its opposite, to one output",
    8: "a port that is compared with the table that it fills",
    11: "a cycle of components that is none of rows",
    12: "losers",
    14: "a count behind a sequencer",
    15: "below a bound behind a sequencer",
}

TURNED = {"<": ">", "<=": ">=", ">": "<", ">=": "<="}
GROWS, FALLS = (">", ">="), ("<", "<=")

# Which aggregates, compared in which way, only come to be true.
REACHED = {("count", GROWS): 1, ("max", GROWS): 2, ("min", FALLS): 2, ("sum", GROWS): 3}


def kinds_of(topology, labels, stream):
    """The numbers of the kinds whose form stands behind a stream, by the labels of the topology."""
    wiring = Wiring(topology)
    name, output = wiring.streams[stream]["from"].split(".")
    component = wiring.components[name]
    if "module" not in component:
        return []
    with open(component["module"], encoding="utf-8") as file:
        module = Module(file.read())
    if wiring.is_ordered(name):
        return [number for number, has in ((14, counts(module, output)), (15, below(module, output))) if has]
    found = {number for part in module.parts_of(output) for number in of_part(part)}
    found |= {number for number, has in (
        (5, leaves_out(module, output) and any(is_bad(labels[it]) for it in wiring.into(name))),
        (6, has_both_halves(module, output)),
        (8, sees_itself(module, output)),
        (11, set(wiring.out_of(name)) & set(wiring.upstream(name))),
    ) if has}
    return sorted(found)


def told(numbers):
    """Where to look, as vary says it."""
    kinds = ", or ".join(f"{it}: {KINDS[it]}" for it in numbers)
    return f"; docs/never-varies.md {kinds}" if kinds else ""


def of_part(part):
    """The kinds of an expression: a computed column that is compared and left out, or left out alone, and a
    `notin` of a least or a greatest."""
    if part.name == "notin" and part.parts[1].name == "group":
        group = part.parts[1]
        return [12] if group.parts[0] == part.parts[0] and aggregate(group) in ("min", "max") else []
    if part.name != "project":
        return []
    inner = part.parts[0]
    group = inner.parts[0] if inner.name == "select" else inner
    if group.name != "group" or group.words[-1] in taken(part):
        return []
    if inner is group:
        return [4]
    return [number for (of, ways), number in REACHED.items() if aggregate(group) == of and compared(inner, group) in ways]


def taken(project):
    """The columns that a projection takes."""
    return [word for comma, word in zip(project.words, project.words[1:]) if comma == ","]


def aggregate(group):
    return next(it for it in group.words if it in AGGREGATES)


def compared(select, group):
    """How a selection compares the column that a group computes, the column in front."""
    column, words = group.words[-1], select.words
    for first, way, second in zip(words, words[1:], words[2:]):
        if way in TURNED and column in (first, second):
            return way if first == column else TURNED[way]
    return None


def leaves_out(module, output):
    """Whether an output has only rows that came, without some of their columns."""
    return all(
        body.name == "project" and not body.parts[0].parts and module.kinds[body.parts[0].name] in ("input", "table")
        for body in module.bodies.get(output, [])
    )


def has_both_halves(module, output):
    """Whether one rule has the rows of a join, and another those of the `notin` of the same."""
    parts = [it for body in module.bodies.get(output, []) for it in within(body)]
    joins = [(it.parts, it.words) for it in parts if it.name == "join"]
    return any((it.parts, it.words) in joins for it in parts if it.name == "notin")


def sees_itself(module, output):
    """Whether the rows of a port are compared with a table to which the same rule brings them all."""
    pairs = [it.parts for it in module.parts_of(output) if it.name in ("join", "notin")]
    return any(
        module.kinds.get(one.name) == "input" and module.kinds.get(other.name) == "table" and one in module.bodies.get(other.name, [])
        for pair in pairs for one, other in (pair, pair[::-1])
    )


def counts(module, output):
    return "count" in module.momentary(output)


def below(module, output):
    """Whether rows come while a count is below a number."""
    return any(
        it.name == "select" and it.parts[0].name == "group" and aggregate(it.parts[0]) == "count" and compared(it, it.parts[0]) in FALLS
        for it in module.parts_of(output)
    )
