"""The boxes and the edges of a topology's picture: what stands in each box, and where its edges begin and end."""
from collections import namedtuple

# How wide a letter is, and how high a line: of a name and what stands below it, and of a port or an output.
LETTER, HEAD, LINE, EDGE_OF_BOX = 7.25, 40, 20, 10
LEAST_WIDTH = 150

# A stream from a box to a port of another; and what one picture shows: the labels of the streams, the modes of the
# components and which of them are others than before, the cycles, and the marks of the streams at which bad labels begin.
Edge = namedtuple("Edge", "stream start end port")
State = namedtuple("State", "name heading labels modes changed cycles marks")


class Box:
    """A source or a component. A source has its own name for its one output."""

    def __init__(self, table, is_source):
        self.name, self.is_source = table["name"], is_source
        self.replicas = table.get("replicas", 1)
        self.ports, self.outputs = [], [self.name] if is_source else []
        self.body = "source" if is_source else body_of(table)
        self.x = self.y = self.wide = 0

    @property
    def below(self):
        """What stands below the name of a component."""
        return self.body + (f", {self.replicas} replicas" if self.replicas > 1 else "")

    @property
    def head(self):
        return LINE if self.is_source else HEAD

    @property
    def port_lines(self):
        """The ports that have a line of their own: one port needs none."""
        return self.ports if len(self.ports) > 1 else []

    @property
    def high(self):
        return self.head + LINE * (len(self.port_lines) + len(self.outputs)) + 6

    def least_width(self, states):
        """How wide the box has to be for all its lines in each of the pictures."""
        lines = [self.below, *(f"> {it}" for it in self.ports)]
        for state in states:
            lines.append(f"{self.name}  {'' if self.is_source else state.modes[self.name]}")
            lines += [f"1234 {it}  {state.labels[it]}" for it in self.outputs]
        return max(LEAST_WIDTH, max(map(len, lines)) * LETTER + 2 * EDGE_OF_BOX)

    def line_of_port(self, port):
        """The middle of the line at which a stream comes in, from the top of the box: an only port is level with the
        first output, so that a chain is level."""
        if not self.port_lines and not self.outputs:
            return HEAD / 2
        return self.head + LINE * (self.ports.index(port) + 0.5)

    def line_of_output(self, stream):
        """The middle of the line of an output, from the top of the box."""
        return self.head + LINE * (len(self.port_lines) + self.outputs.index(stream) + 0.5)


def body_of(table):
    """What a component's body is, in a few words."""
    if "module" in table:
        return table["module"].rsplit("/", 1)[-1]
    return f"stock body {table['stock']}" if "stock" in table else "declared notes"


def boxes_of(topology):
    """The boxes of sources and components by their keys: a source may have the name of a component."""
    boxes = {("source", it["name"]): Box(it, True) for it in topology.get("source", [])}
    boxes.update({("component", it["name"]): Box(it, False) for it in topology.get("component", [])})
    for it in topology.get("stream", []):
        boxes[start_of(it)].outputs.append(it["name"])
    return boxes


def start_of(stream):
    """The key of the box from which a stream comes."""
    return ("component", stream["from"].split(".")[0]) if "from" in stream else ("source", stream["name"])


def edges_of(topology, boxes):
    """All edges in the order of the streams. The boxes get the ports to which they lead."""
    edges = []
    for stream in topology.get("source", []) + topology.get("stream", []):
        for place in stream.get("to", []):
            component, port = place.split(".")
            end = ("component", component)
            edges.append(Edge(stream["name"], start_of(stream), end, port))
            if port not in boxes[end].ports:
                boxes[end].ports.append(port)
    return edges
