"""The ways of the edges of a picture, as SVG writes them, and the heads of their arrows."""
from layout import BEND, LANE

# How long the head of an arrow is; it is as high.
HEAD = 10


def point(x, y):
    return f"{x:.0f} {y:.0f}"


def curve(start, end):
    """From the right of one column to the left of the next, level at both ends."""
    half = (end[0] - start[0]) / 2
    return f"C{point(start[0] + half, start[1])} {point(end[0] - half, end[1])} {point(*end)}"


def way_on(layout, edge):
    """The way of an edge that leads on, from column to column."""
    at, way = layout.start_of(edge), [f"M{point(*layout.start_of(edge))}"]
    for bend in layout.way_of(edge):
        left, wide = layout.left[bend.layer]
        way += [curve(at, (left, bend.y + BEND / 2)), f"H{left + wide:.0f}"]
        at = left + wide, bend.y + BEND / 2
    x, y = layout.end_of(edge)
    return "".join([*way, curve(at, (x - HEAD - 2, y)), f"H{x - HEAD + 2:.0f}"]), f"M{point(x, y)}l-{HEAD}-5v10z"


def way_within(layout, edge):
    """The way of an edge between boxes of one column: beside it, into the right of the box."""
    (x, y), (_, end) = layout.start_of(edge), layout.end_of(edge)
    lanes = layout.lanes_of(layout.item_of[edge.start].layer)
    far = x + (2 * LANE + LANE * lanes.index(edge)) / 0.75
    return f"M{point(x, y)}C{point(far, y)} {point(far, end)} {point(x + HEAD - 2, end)}", f"M{point(x, end)}l{HEAD}-5v10z"


def way_back(layout, edge, number):
    """The way of an edge back to an earlier column, below all of it."""
    (x, y), (end_x, end_y) = layout.start_of(edge), layout.end_of(edge)
    out = x + LANE * (len(layout.lanes_of(layout.item_of[edge.start].layer)) + 1 + number)
    back, low = end_x - LANE * (number + 1) - HEAD, layout.bottom + LANE * number
    return f"M{point(x, y)}H{out:.0f}V{low:.0f}H{back:.0f}V{end_y:.0f}H{end_x - HEAD + 2:.0f}", f"M{point(end_x, end_y)}l-{HEAD}-5v10z"


def way_of(layout, edge):
    """The way of an edge, and the head of its arrow."""
    if edge in layout.back:
        return way_back(layout, edge, [it for it in layout.edges if it in layout.back].index(edge))
    return way_within(layout, edge) if layout.is_within(edge) else way_on(layout, edge)
