"""The lines of files at which refusals are: as FILE:LINE: and what stands there."""
import json
import re

from json_places import Rows
from toml_places import Places
from waiting import shown

# The most of a line that is shown.
WIDTH = 200


def read(file):
    with open(file, encoding="utf-8", newline="") as opened:
        return opened.read()


def line_of(data, offset):
    """The number of the line on which a byte stands."""
    return data.count(b"\n", 0, offset) + 1


def shown_at(file, line, text):
    text = text.strip()
    return f"{file}:{line}: {text if len(text) <= WIDTH else text[:WIDTH] + '..'}"


def at_line(file, number):
    return shown_at(file, number, read(file).split("\n")[number - 1])


def at_offset(file, offset, end=None):
    """The line of an offset; where an end is given, only what stands up to there."""
    text = read(file)
    line_end = (text + "\n").index("\n", offset)
    start = text.rfind("\n", 0, offset) + 1 if end is None else offset
    return shown_at(file, text.count("\n", 0, offset) + 1, text[start : min(end or line_end, line_end)])


def marked(file, data, offset):
    """The line of an offset in bytes, and below it a caret under the place."""
    start, end = data.rfind(b"\n", 0, offset) + 1, (data + b"\n").index(b"\n", offset)
    front, behind = (it.decode(errors="replace") for it in (data[start:offset], data[offset:end]))
    front, behind = front.lstrip(), behind.rstrip()
    front = front if len(front) <= WIDTH // 2 else f"..{front[-WIDTH // 2 :]}"
    behind = behind if len(behind) <= WIDTH // 2 else f"{behind[: WIDTH // 2]}.."
    head = f"{file}:{line_of(data, offset)}: {front}"
    return [head + behind, re.sub(r"[^\t]", " ", head) + "^"]


def entry_of(topology, kind, number, key=None):
    """The line of an entry of a topology, or of a key of it that is there."""
    entry = Places(read(topology)).entries[kind][number - 1]
    return at_offset(topology, next((it[1] for it in entry.pairs if it[0] == key), entry.start))


def row_of(data, source, number):
    """The line of a row of the data, or of a source's entry."""
    rows = Rows(read(data))
    return at_offset(data, *rows.of_source[source][number - 1]) if number else at_offset(data, rows.entries[source])


def rows_like(data, records):
    """The first row of the data that is written as each of these records."""
    text = read(data)
    rows = [it for rows in Rows(text).of_source.values() for it in rows]
    for record in records:
        yield at_offset(data, *next(
            it for it in rows if f"({', '.join(map(shown, json.loads(text[slice(*it)])))})" == record))
