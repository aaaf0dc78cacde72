"""Where the entries of a topology stand in its text, and their pairs of a key and a value."""
import re
import tomllib

# White space and comments; a text, over many lines or one; a bare key or value.
BLANK = re.compile(r"(?:\s|#[^\n]*)*")
TEXT = re.compile(r'"""(?:\\.|[^\\])*?"{3,5}|\'\'\'.*?\'{3,5}|"(?:\\.|[^"\\\n])*"|\'[^\'\n]*\'', re.S)
BARE = re.compile(r"[^\s,=\[\]{}#]+")
HEADER = re.compile(r"\[{1,2}([^\]\n]*)\]{1,2}")


class Entry:
    """A table: where it begins, whether it stands between braces, and of each of its own pairs the key and
    the places (key from, value from, value to)."""

    def __init__(self, start, is_inline):
        self.start, self.is_inline, self.pairs = start, is_inline, []


class Places:
    """The entries of each list of tables at the top of a TOML text, in order: those under `[[name]]`, or
    those between braces in the list `name`. An unusual text may be an AttributeError or an IndexError."""

    def __init__(self, text):
        self.text, self.place, self.entries = text, 0, {}
        entry = top = Entry(0, False)
        while self.skip() < len(text):
            if text[self.place] != "[":
                self.pair(entry)
                if entry is top:
                    self.entries[entry.pairs[-1][0]] = self.tables
                continue
            header = HEADER.match(text, self.place)
            entry, self.place = Entry(self.place, False), header.end()
            self.entries.setdefault(header[1].strip(" \t\"'"), []).append(entry)

    def skip(self):
        self.place = BLANK.match(self.text, self.place).end()
        return self.place

    def word(self):
        self.place = (TEXT.match(self.text, self.place) or BARE.match(self.text, self.place)).end()

    def pair(self, entry):
        start = self.place
        while self.text[self.skip()] != "=":
            self.word()
        key = next(iter(tomllib.loads(self.text[start : self.place] + "= 0")))
        self.place += 1
        value = self.skip()
        self.tables = self.value()
        entry.pairs.append((key, start, value, self.place))

    def value(self):
        """Goes over a value, and gives the tables that stand in it as in a list."""
        tables, opening = [], self.text[self.place]
        if opening not in "[{":
            self.word()
            return tables
        table = Entry(self.place, True)
        self.place += 1
        while self.text[self.skip()] not in "]}":
            if self.text[self.place] == ",":
                self.place += 1
            elif opening == "{":
                self.pair(table)
            else:
                tables += self.value()
        self.place += 1
        return [table] if opening == "{" else tables


def stream_lines(file, topology, kinds=("source", "stream")):
    """The name of each source and stream of a topology, and the line of its file on which the entry begins; or of
    entries of other kinds."""
    with open(file, encoding="utf-8", newline="") as opened:
        text = opened.read()
    entries = Places(text).entries
    for kind in kinds:
        for table, entry in zip(topology.get(kind, []), entries.get(kind, [])):
            yield table["name"], text.count("\n", 0, entry.start) + 1
