"""The picture of a topology as SVG: its boxes, its streams by their labels, and where bad labels begin."""
import html

from boxes import EDGE_OF_BOX, LETTER
from explained import MEANING, kind, mode_words
from layout import BELOW_FRAME, FRAME, LANE
from styles import PICTURE
from ways import way_of

SVG = "http://www.w3.org/2000/svg"

# How high the heading of a picture is that stands alone; how small one gets on a narrow page, before it is moved there.
HEADING, LEAST_SCALE = 34, 0.7


def tag(element, *inside, **attributes):
    """An element. A `_` behind the name of an attribute is no part of it, and other ones are hyphens."""
    words = "".join(f' {key.rstrip("_").replace("_", "-")}="{html.escape(str(value))}"' for key, value in attributes.items() if value is not None)
    return f"<{element}{words}>{''.join(inside)}</{element}>" if inside else f"<{element}{words}/>"


def text(x, y, words, class_, anchor=None):
    """A text with its width, so that it has it in whatever font."""
    width = f"{len(words) * LETTER:.0f}" if words else None
    return tag("text", html.escape(words), x=f"{x:.0f}", y=f"{y:.0f}", class_=class_, text_anchor=anchor, textLength=width)


def rectangle(x, y, wide, high, class_, round_=4):
    return tag("rect", x=f"{x:.0f}", y=f"{y:.0f}", width=f"{wide:.0f}", height=f"{high:.0f}", rx=round_, class_=class_)


class Picture:
    """One picture of a topology: its layout, and what this one shows."""

    def __init__(self, layout, state, has_links=False):
        self.layout, self.state, self.has_links = layout, state, has_links
        self.wide, self.high = layout.wide, layout.high

    def svg(self):
        """The picture as an element of a page."""
        words = f"The topology {self.state.heading}, with the label of each stream"
        return tag("svg", *self.parts(), xmlns=SVG, viewBox=f"0 0 {self.wide:.0f} {self.high:.0f}", width=f"{self.wide:.0f}",
                   height=f"{self.high:.0f}", style=f"min-width:{LEAST_SCALE * self.wide:.0f}px", class_="topology", role="group",
                   aria_label=words)

    def parts(self):
        """Frames and edges first, so that boxes lie above them."""
        for members in self.state.cycles:
            yield self.frame(members)
        for stream in self.state.labels:
            yield self.stream(stream)
        for box in self.layout.boxes.values():
            yield self.box(box)

    def frame(self, members):
        """The frame around the members of a cycle, and around the edges between them."""
        boxes = [self.layout.boxes["component", it] for it in members]
        lanes = len(self.layout.lanes_of(self.layout.item_of["component", members[0]].layer))
        left, top = boxes[0].x - 12, min(it.y for it in boxes) - FRAME + 4
        wide, high = boxes[0].wide + 12 + LANE * (lanes + 2), max(it.y + it.high for it in boxes) + BELOW_FRAME - 4 - top
        return tag("g", tag("title", f"a cycle of {', '.join(members)}: the streams of its members have one label"),
                   rectangle(left, top, wide, high, "frame", 8), text(boxes[0].x, top + 15, "a cycle: one label", "aside"))

    # ---- streams

    def stream(self, stream):
        """The edges of a stream; one that goes nowhere has a short end."""
        label, edges = self.state.labels[stream], [it for it in self.layout.edges if it.stream == stream]
        pieces = [piece for it in edges for piece in self.edge(it, kind(label))]
        ends = ", ".join(f"{it.end[1]}.{it.port}" for it in edges) or "nowhere"
        title = tag("title", html.escape(f"{stream} {label}, to {ends}: {MEANING[kind(label)]}"))
        return tag("g", title, *(pieces or self.short_end(stream, kind(label))), class_="stream")

    def edge(self, edge, label):
        way, head = way_of(self.layout, edge)
        return tag("path", d=way, class_=f"edge {label}"), tag("path", d=head, class_=f"head {label}")

    def short_end(self, stream, label):
        box = next(it for it in self.layout.boxes.values() if stream in it.outputs)
        x, y = box.x + box.wide, box.y + box.line_of_output(stream)
        yield tag("path", d=f"M{x:.0f} {y:.0f}h14", class_=f"edge {label}")
        yield tag("circle", cx=f"{x + 14:.0f}", cy=f"{y:.0f}", r="3", class_=f"head {label}")

    # ---- boxes

    def box(self, box):
        mode = None if box.is_source else self.state.modes[box.name]
        words = f"{box.name}, {box.below}" + (f", mode {mode}: {mode_words(mode)}" if mode else "")
        parts = self.source_head(box) if box.is_source else self.component_head(box, mode)
        lines = [*self.port_lines(box), *(it for stream in box.outputs for it in self.output_line(box, stream))]
        return tag("g", tag("title", html.escape(words)), *parts, *lines, class_="box")

    def source_head(self, box):
        yield rectangle(box.x, box.y, box.wide, box.high, "body source", 12)
        yield text(box.x + EDGE_OF_BOX, box.y + 16, box.name, "name")

    def component_head(self, box, mode):
        is_order, is_new = mode == "order", box.name in self.state.changed
        yield rectangle(box.x, box.y, box.wide, box.high, "body order" if is_order else "body")
        if is_order:
            yield rectangle(box.x, box.y, 6, box.high, "band", 3)
        yield text(box.x + EDGE_OF_BOX, box.y + 16, box.name, "name")
        yield text(box.x + box.wide - EDGE_OF_BOX, box.y + 16, mode, "mode new" if is_new else "mode", "end")
        yield text(box.x + EDGE_OF_BOX, box.y + 32, box.below, "aside")

    def port_lines(self, box):
        for port in box.port_lines:
            yield text(box.x + EDGE_OF_BOX, box.y + box.line_of_port(port) + 4, f"> {port}", "aside")

    def output_line(self, box, stream):
        """A stream with its label, and a mark where a bad label begins."""
        y, label = box.y + box.line_of_output(stream), self.state.labels[stream]
        mark = self.state.marks.get(stream)
        if mark:
            yield self.mark(mark, box.x + EDGE_OF_BOX + 9, y, f"{mark}: {stream} begins to be {label} here")
        name = "source" if box.is_source else stream
        yield text(box.x + EDGE_OF_BOX + (24 if mark else 0), y + 4, name, "aside" if box.is_source else "stream")
        yield text(box.x + box.wide - EDGE_OF_BOX, y + 4, label, f"label {kind(label)}", "end")

    def mark(self, mark, x, y, words):
        inside = [tag("title", html.escape(words)), tag("circle", cx=f"{x:.0f}", cy=f"{y:.0f}", r="9", class_="mark"),
                  tag("text", mark, x=f"{x:.0f}", y=f"{y + 4:.0f}", class_="number", text_anchor="middle")]
        return tag("a", *inside, href=f"#{self.state.name}-{mark}") if self.has_links else tag("g", *inside)


def alone(pictures):
    """A file with the pictures one below the other, each under its heading."""
    wide, parts, y = max(max(it.wide for it in pictures), 260), [], 0
    for picture in pictures:
        heading = tag("text", picture.state.heading, x="24", y=f"{y + 24}", class_="heading")
        parts += [heading, tag("g", *picture.parts(), transform=f"translate(0 {y + HEADING - 10})")]
        y += HEADING + round(picture.high) - 10
    ground = rectangle(0, 0, wide, y, "ground", 0)
    words = "A topology with the label of each stream: " + ", and ".join(it.state.heading for it in pictures)
    return tag("svg", tag("title", words), tag("style", PICTURE), ground, *parts, xmlns=SVG,
               viewBox=f"0 0 {wide:.0f} {y}", width=f"{wide:.0f}", height=f"{y}", class_="topology", role="img")
