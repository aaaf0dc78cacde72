"""Where the boxes of a picture stand.

They stand in columns, each box right of what it hears; the members of a cycle stand in one column, one below the
other. An edge that goes over several columns has a free line, a bend, in each between. So texts stand in boxes alone,
and edges run beside columns, through bends, or below all of it: no edge meets a text.
"""
from boxes import HEAD, LEAST_WIDTH

MARGIN, GAP, BEND = 24, 26, 12

# The room that a frame needs above each member of a cycle, for its title, and below it.
FRAME, BELOW_FRAME = 26, 12

# The room between two columns; how much of it an edge takes that leads back into its own column.
BETWEEN, LANE = 84, 10

SWEEPS = 8


class Item:
    """What stands in a column as one: a box, the boxes of a cycle, or a bend of a stream."""

    def __init__(self, boxes, layer=0, is_cycle=False):
        self.boxes, self.layer, self.y = boxes, layer, 0
        # How far below its top each of its boxes begins, and how high it is; a cycle has room for its frame.
        self.tops, self.high = [], 0
        for box in boxes:
            self.tops.append(self.high + (FRAME if is_cycle else 0))
            self.high = self.tops[-1] + box.high + (BELOW_FRAME if is_cycle else 0)
        self.high = self.high or BEND

    def top_of(self, box):
        return self.tops[self.boxes.index(box)]


class Layout:
    """The places of the boxes. `cycles` names the members of each cycle; all `states` have to fit."""

    def __init__(self, boxes, edges, cycles, states):
        self.boxes, self.edges = boxes, edges
        self.item_of = self.items_of(cycles)
        self.items = list(dict.fromkeys(self.item_of.values()))
        self.back = self.edges_back()
        self.set_layers()
        self.columns = [[] for _ in range(max((it.layer for it in self.items), default=0) + 1)]
        for item in self.items:
            self.columns[item.layer].append(item)
        self.bends = self.bends_of()
        self.links = self.links_of()
        self.order_columns()
        self.place_down()
        self.order_ports()
        self.links = self.links_of()
        self.place_down()
        self.place_across(states)

    def items_of(self, cycles):
        """The item of each box."""
        found = {}
        for cycle in cycles:
            members = [key for key, box in self.boxes.items() if not box.is_source and box.name in cycle]
            found.update(dict.fromkeys(members, Item([self.boxes[it] for it in members], is_cycle=True)))
        return {key: found.get(key) or Item([box]) for key, box in self.boxes.items()}

    def is_within(self, edge):
        """Whether an edge leads from a column into the same one."""
        return self.item_of[edge.start] is self.item_of[edge.end]

    def goes_on(self, edge):
        """Whether an edge leads to a later column."""
        return edge not in self.back and not self.is_within(edge)

    # ---- columns

    def edges_back(self):
        """The edges that close a round of items; such a round goes through a component in mode order."""
        state, back = {}, set()

        def visit(item):
            state[item] = "open"
            for edge in self.edges:
                if self.item_of[edge.start] is item and not self.is_within(edge):
                    end = self.item_of[edge.end]
                    if state.get(end) == "open":
                        back.add(edge)
                    elif end not in state:
                        visit(end)
            state[item] = "left"

        for item in self.items:
            if item not in state:
                visit(item)
        return back

    def set_layers(self):
        """Each item is right of all that it hears; one that hears nothing, as a source, is next to the first that hears it."""
        pairs = {(self.item_of[it.start], self.item_of[it.end]) for it in self.edges if self.goes_on(it)}
        for _ in self.items:
            for start, end in pairs:
                end.layer = max(end.layer, start.layer + 1)
        for item in set(self.items) - {end for _, end in pairs}:
            item.layer = min((end.layer for start, end in pairs if start is item), default=1) - 1

    def bends_of(self):
        """The bends of each stream by their layers: all its edges go through the same ones."""
        bends = {}
        for edge in filter(self.goes_on, self.edges):
            for layer in range(self.item_of[edge.start].layer + 1, self.item_of[edge.end].layer):
                if (edge.stream, layer) not in bends:
                    bends[edge.stream, layer] = Item([], layer)
                    self.columns[layer].append(bends[edge.stream, layer])
        return bends

    def way_of(self, edge):
        """The bends through which an edge goes."""
        layers = range(self.item_of[edge.start].layer + 1, self.item_of[edge.end].layer)
        return [self.bends[edge.stream, it] for it in layers]

    def links_of(self):
        """What each item is joined to in the columns beside it: the other item, and how far below the top of either
        the edge begins or ends."""
        links, seen = {}, set()
        for edge in filter(self.goes_on, self.edges):
            for start, end in zip(*self.ends_along(edge)):
                if (*start, *end) not in seen:
                    seen.add((*start, *end))
                    links.setdefault(start[0], []).append((end[0], end[1], start[1]))
                    links.setdefault(end[0], []).append((start[0], start[1], end[1]))
        return links

    def ends_along(self, edge):
        """Where the pieces of an edge begin, and where they end."""
        start, end = self.item_of[edge.start], self.item_of[edge.end]
        first = start, start.top_of(self.boxes[edge.start]) + self.boxes[edge.start].line_of_output(edge.stream)
        last = end, end.top_of(self.boxes[edge.end]) + self.boxes[edge.end].line_of_port(edge.port)
        middle = [(it, BEND / 2) for it in self.way_of(edge)]
        return [first, *middle], [*middle, last]

    # ---- the order in a column

    def order_columns(self):
        """Orders each column by what its items are joined to, and keeps the order in which the fewest edges cross."""
        best, fewest = [list(it) for it in self.columns], self.crossings()
        for number in range(SWEEPS):
            for column in self.columns if number % 2 == 0 else reversed(self.columns):
                place = {it: at for column in self.columns for at, it in enumerate(column)}
                column.sort(key=lambda it: self.mean_place(it, place))
            if (count := self.crossings()) < fewest:
                best, fewest = [list(it) for it in self.columns], count
        self.columns = best

    def mean_place(self, item, place):
        links = self.links.get(item)
        if not links:
            return place[item]
        return sum(place[other] + below / (other.high + 1) for other, below, _ in links) / len(links)

    def crossings(self):
        """How many pairs of edges cross between two columns."""
        place = {it: at for column in self.columns for at, it in enumerate(column)}
        count = 0
        for column in self.columns:
            pairs = sorted(((place[it], own), (place[other], below)) for it in column
                           for other, below, own in self.links.get(it, []) if other.layer == it.layer + 1)
            count += sum(ends[1] > later[1] for at, ends in enumerate(pairs) for later in pairs[at + 1 :])
        return count

    # ---- places

    def place_down(self):
        """Each item as near as can be to the height of what it is joined to."""
        for column in self.columns:
            for item, y in zip(column, spread([0] * len(column), column)):
                item.y = y
        for number in range(2 * SWEEPS):
            for column in self.columns if number % 2 == 0 else reversed(self.columns):
                for item, y in zip(column, spread([self.wanted(it) for it in column], column)):
                    item.y = y
        top = min((it.y for column in self.columns for it in column), default=0)
        for item in (it for column in self.columns for it in column):
            item.y += MARGIN - top
            for box, below in zip(item.boxes, item.tops):
                box.y = item.y + below

    def order_ports(self):
        """The ports of each box in the order in which their streams come, from the top."""
        for key, box in self.boxes.items():
            heights = {it: [] for it in box.ports}
            for edge in self.edges:
                if edge.end == key:
                    heights[edge.port].append(self.start_of(edge)[1])
            box.ports.sort(key=lambda it: sum(heights[it]) / len(heights[it]))

    def wanted(self, item):
        """Where an item would stand so that its edges are level."""
        links = self.links.get(item)
        return sum(other.y + below - own for other, below, own in links) / len(links) if links else item.y

    def place_across(self, states):
        """The columns one after the other, with room for the edges between them."""
        self.left, x = [], MARGIN + self.beside()
        for number, column in enumerate(self.columns):
            boxes = [box for item in column for box in item.boxes]
            wide = max((it.least_width(states) for it in boxes), default=LEAST_WIDTH)
            for box in boxes:
                box.x, box.wide = x, wide
            self.left.append((x, wide))
            x += wide + BETWEEN + LANE * len(self.lanes_of(number)) + 2 * self.beside()
        last_x, last_wide = self.left[-1]
        lanes = len(self.lanes_of(len(self.columns) - 1))
        self.wide = last_x + last_wide + MARGIN + (LANE * (lanes + 2) if lanes else 0) + self.beside()
        self.bottom = max((it.y + it.high for column in self.columns for it in column), default=0) + 12
        self.high = self.bottom + LANE * len(self.back) + MARGIN - 12

    def beside(self):
        """The room beside a column for the edges that lead back below all of it."""
        return LANE * (len(self.back) + 1) if self.back else 0

    def lanes_of(self, layer):
        """The edges that lead from a column into itself, those over the shortest ways first."""
        within = [it for it in self.edges if self.is_within(it) and self.item_of[it.start].layer == layer]
        return sorted(within, key=lambda it: abs(self.start_of(it)[1] - self.end_of(it)[1]))

    def start_of(self, edge):
        """Where an edge begins, at the right of its box."""
        box = self.boxes[edge.start]
        return box.x + box.wide, box.y + box.line_of_output(edge.stream)

    def end_of(self, edge):
        """Where an edge ends: at the left of its box, or at the right of it where it comes out of the same column."""
        box = self.boxes[edge.end]
        if self.is_within(edge):
            return box.x + box.wide, box.y + (box.line_of_port(edge.port) if box.port_lines else HEAD / 2)
        return box.x, box.y + box.line_of_port(edge.port)


def spread(wanted, column):
    """The heights that are nearest to the wanted ones, so that the items of a column follow each other in order and
    apart. Items that get in each other's way move together."""
    below, total = [], 0
    for item in column:
        below.append(total)
        total += item.high + (GAP if item.boxes else GAP / 2)
    # Runs of items that stand close together: the sum of what they want, and how many they are.
    runs = []
    for want, distance in zip(wanted, below):
        runs.append((want - distance, 1))
        while len(runs) > 1 and runs[-2][0] / runs[-2][1] > runs[-1][0] / runs[-1][1]:
            last, other = runs.pop(), runs.pop()
            runs.append((last[0] + other[0], last[1] + other[1]))
    starts = [total / count for total, count in runs for _ in range(count)]
    return [start + distance for start, distance in zip(starts, below)]
