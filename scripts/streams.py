"""The streams of a topology: their labels, and who sends and hears what."""
import re
from collections import namedtuple

LABELS = ["Seal", "Async", "Run", "Inst", "Diverge"]

# A label, and a line with one: of `label`, and of a source and an output under `derive`.
LABEL = r"((?:Seal|Async|Run|Inst|Diverge)(?:\[.*?\])?)"
LABELLED = re.compile(rf"^(\w+) {LABEL}$|^(?:source|  out) (\w+) {LABEL}(?: |$)", re.M)


def labels_of(text):
    """The label of each stream, out of what `label` or `derive` writes."""
    return {found[1] or found[3]: found[2] or found[4] for found in LABELLED.finditer(text.decode())}


def severity(label):
    """The place of a label between the best, 0, and the worst."""
    return LABELS.index(label.split("[")[0])


def is_bad(label):
    """Whether contents may vary under this label."""
    return severity(label) > LABELS.index("Async")


def changed(before, after):
    """The streams whose label became better, and those whose label became worse, as lines."""
    lines = {True: [], False: []}
    for name, label in before.items():
        if severity(label) != severity(after[name]):
            lines[severity(label) > severity(after[name])].append(f"{name} {label} -> {after[name]}")
    return lines[True], lines[False]


def sides(component, side):
    """The ports or the outputs of a component (`input` or `output`), each with its columns; those of the output
    of a stock body aren't told."""
    if "module" in component:
        with open(component["module"], encoding="utf-8") as file:
            text = re.sub(r"#.*", "", file.read())
        found = re.findall(rf"\b{side}\s+(\w+)\s*\(([^)]*)\)", text)
        return {name: columns.replace(",", " ").split() for name, columns in found}
    if "stock" not in component:
        return {it["name"]: it["columns"] for it in component.get(f"{side}s", [])}
    if side == "output":
        return {"out": []}
    if component["stock"] == "latest":
        return {"put": component["columns"], "ask": component["keys"]}
    return {"in": component["columns"]}


def loose_ends(topology):
    """The ports into which no stream leads, and the outputs that no stream takes, as the file would name them."""
    components = {it["name"]: it for it in topology.get("component", [])}
    fed = [it for table in topology.get("source", []) + topology.get("stream", []) for it in table.get("to", [])]
    taken = [it["from"] for it in topology.get("stream", [])]
    ports, outputs = (
        [f"{name}.{it}" for name, component in components.items() for it in sides(component, side)] for side in ("input", "output")
    )
    return [it for it in ports if it not in fed], [it for it in outputs if it not in taken]


# What goes from one sending replica of a stream to a port: `receiver` is a replica, or nothing where the
# component has a log.
Lane = namedtuple("Lane", "stream sender component port receiver")


class Wiring:
    """Which replicas of a topology send to which."""

    def __init__(self, topology):
        self.components = {it["name"]: it for it in topology.get("component", [])}
        self.streams = {it["name"]: it for it in topology.get("source", []) + topology.get("stream", [])}

    def replicas(self, component):
        return range(self.components[component].get("replicas", 1))

    def senders(self, stream):
        origin = self.streams[stream].get("from")
        return self.replicas(origin.split(".")[0]) if origin else range(1)

    def is_source(self, stream):
        return "from" not in self.streams[stream]

    def may_seal(self, stream):
        """Whether a stream may send seals, for all that its own entry and that of its component say."""
        table = self.streams[stream]
        return bool(table.get("seal")) if self.is_source(stream) else "key" in self.components[table["from"].split(".")[0]]

    def into(self, component):
        """The streams into a component."""
        return [it for it, table in self.streams.items() if any(to.split(".")[0] == component for to in table.get("to", []))]

    def into_port(self, component, port):
        return [it for it, table in self.streams.items() if f"{component}.{port}" in table.get("to", [])]

    def out_of(self, component):
        """The streams that a component sends."""
        return [it for it, table in self.streams.items() if table.get("from", "").split(".")[0] == component]

    def upstream(self, component):
        """The streams from which a component can be reached."""
        found, left = [], [component]
        while left:
            new = [it for it in self.into(left.pop()) if it not in found]
            found += new
            left += [self.streams[it]["from"].split(".")[0] for it in new if not self.is_source(it)]
        return found

    def is_ordered(self, component):
        return self.components[component].get("mode") == "order"

    def lanes(self):
        """All lanes, in the order of the streams."""
        for stream, table in self.streams.items():
            for place in table.get("to", []):
                component, port = place.split(".")
                for sender in self.senders(stream):
                    for receiver in self.receivers(stream, sender, component):
                        yield Lane(stream, sender, component, port, receiver)

    def receivers(self, stream, sender, component):
        """The replicas that hear a sending one: the one of the same number, but all where one side is one."""
        if self.is_ordered(component):
            return [None]
        if len(self.senders(stream)) == 1 or len(self.replicas(component)) == 1:
            return self.replicas(component)
        return [sender]


def contents_of(text):
    """Out of what `run` writes the contents of each sending replica, by stream, and whether the run is complete."""
    lines = text.decode().split("\n")
    found = {}
    for number, line in enumerate(lines):
        words = line.split(" ")
        # Behind 'STREAM REPLICA COUNT' stand so many records; those begin with two spaces.
        if len(words) == 3 and words[0]:
            records = lines[number + 1 : number + 1 + int(words[2])]
            found.setdefault(words[0], []).append(tuple(it[2:] for it in records))
    return found, lines[-2] == "complete"
