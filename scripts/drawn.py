"""What is wrong with the pictures of a page, by the boxes of their texts: for scripts/test."""
import re
import xml.etree.ElementTree as xml
from collections import Counter, namedtuple

# How far the letters of a line reach above and below its base.
ABOVE, BELOW = 10, 3

# Into how many pieces a curve is cut.
PIECES = 24

Area = namedtuple("Area", "left top right bottom words")


def pictures(text):
    """The elements of the pictures of a page or of a file, without the names of their languages."""
    root = xml.fromstring(text)
    for it in root.iter():
        it.tag = it.tag.rsplit("}", 1)[-1]
    if root.tag == "svg":
        return [it for it in root if it.tag == "g"]
    return [it for it in root.iter("svg") if it.get("role") == "group"]


def classes(element):
    return element.get("class", "").split()


def area_of_text(element):
    """The area of a text, which has its width written."""
    x, y, wide = float(element.get("x")), float(element.get("y")), float(element.get("textLength") or 8 * len(element.text))
    left = {"end": x - wide, "middle": x - wide / 2}.get(element.get("text-anchor"), x)
    return Area(left, y - ABOVE, left + wide, y + BELOW, element.text)


def area_of_box(element):
    left, top, wide, high = (float(element.get(it)) for it in ("x", "y", "width", "height"))
    return Area(left, top, left + wide, top + high, "a box")


def is_within(inner, outer):
    return outer.left <= inner.left and inner.right <= outer.right and outer.top <= inner.top and inner.bottom <= outer.bottom


def overlap(one, other):
    return one.left < other.right and other.left < one.right and one.top < other.bottom and other.top < one.bottom


def points(way):
    """Points along a way."""
    x = y = 0
    for command, words in re.findall(r"([MCHVh])([-\d. ]*)", way):
        numbers = [float(it) for it in words.split()]
        start = x, y
        if command == "C":
            for piece in range(PIECES + 1):
                yield curve(start, numbers, piece / PIECES)
        x, y = {"H": lambda: (numbers[0], y), "V": lambda: (x, numbers[0]), "h": lambda: (x + numbers[0], y)}.get(command, lambda: numbers[-2:])()
        yield from ((start[0] + (x - start[0]) * it / PIECES, start[1] + (y - start[1]) * it / PIECES) for it in range(PIECES * (command in "HVh")))
        yield x, y


def curve(start, numbers, at):
    """The point of a curve at a share of its way."""
    weights = (1 - at) ** 3, 3 * at * (1 - at) ** 2, 3 * at**2 * (1 - at), at**3
    corners = [start, *zip(numbers[::2], numbers[1::2])]
    return tuple(sum(weight * corner[axis] for weight, corner in zip(weights, corners)) for axis in (0, 1))


def faults(picture, streams):
    """Each thing that is wrong with a picture of a topology that has these streams."""
    boxes = [it for it in picture.iter("g") if classes(it) == ["box"]]
    areas = [area_of_box(next(it for it in box if "body" in classes(it))) for box in boxes]
    texts = [area_of_text(it) for it in picture.iter("text")]
    yield from faults_of_texts(boxes, areas)
    for at, one in enumerate(texts):
        yield from (f"{one.words} lies over {other.words}" for other in texts[at + 1 :] if overlap(one, other))
    for at, one in enumerate(areas):
        yield from ("two boxes overlap" for other in areas[at + 1 :] if overlap(one, other))
    yield from faults_of_ways(picture, areas, texts)
    drawn = Counter(it.find("title").text.split(" ")[0] for it in picture.iter("g") if classes(it) == ["stream"])
    told = Counter(name for box in boxes for name in names_of_streams(box))
    yield from (f"{it} is there {drawn[it]} times, and told {told[it]} times" for it in streams if (drawn[it], told[it]) != (1, 1))
    yield from (f"{it} is no stream" for it in set(drawn + told) - set(streams))


def faults_of_texts(boxes, areas):
    for box, area in zip(boxes, areas):
        for it in box.iter("text"):
            if not is_within(area_of_text(it), area):
                yield f"{it.text} is out of its box"


def names_of_streams(box):
    """The streams that a box names; a source has the name of its own."""
    wanted = "name" if any("source" in classes(it) for it in box) else "stream"
    return [it.text for it in box.iter("text") if wanted in classes(it)]


def faults_of_ways(picture, areas, texts):
    """Where an edge goes over a text or a box."""
    places = [(it, it.words) for it in texts] + [(Area(it.left + 1, it.top + 1, it.right - 1, it.bottom - 1, ""), "a box") for it in areas]
    for path in picture.iter("path"):
        if "edge" in classes(path):
            for x, y in points(path.get("d")):
                yield from (f"an edge lies over {words}" for area, words in places if area.left < x < area.right and area.top < y < area.bottom)


def faults_of_size(picture, wide, high):
    """What lies outside a picture of this size."""
    for path in picture.iter("path"):
        if any(not (0 <= x <= wide and 0 <= y <= high) for x, y in points(path.get("d", ""))):
            yield f"{path.get('d')} leaves the picture"
    for it in picture.iter("text"):
        if not is_within(area_of_text(it), Area(0, 0, wide, high, "")):
            yield f"{it.text} leaves the picture"
