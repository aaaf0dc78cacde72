"""The text of a module, read by the grammar of docs/modules.md: its collections and rules, or the token at which
it stops being one, and what may stand there."""
import re
from collections import namedtuple

# The words of the language, which can't be names.
RESERVED = set("module input output table scratch select project join notin group atleast count sum min max as and or not".split())

KINDS_OF_COLLECTIONS = ("input", "output", "table", "scratch")
COMPARISONS = ("=", "!=", "<", "<=", ">", ">=")

# The bounds of the grammar.
MOST_LEVELS, MOST_COMPARISONS, MOST_BYTES = 32, 32, 64

BLANKS = re.compile(rb"(?:[ \t\r\n]+|#[^\n]*)*")
TOKEN = re.compile(
    rb"(?P<name>[A-Za-z_][A-Za-z0-9_]*)|(?P<integer>-?[0-9]+)|(?P<mark><=|!=|>=|[;,()\[\]=<>])"
    rb'|(?P<text>"(?:[^"\\\x00-\x1f\x7f]|\\["\\]|\\x(?:[01][0-9a-f]|7f))*")')

# What may stand at a place, but for words and marks, which are meant as they are written.
CLASSES = {"name": "a name", "integer": "an integer", "bound": "an integer from 1 on", "text": 'a "text"', "end": "the end"}

# A piece of a text, by the bytes at which it begins and ends. It is a name, word, integer, text or mark; or bad,
# where no module has such a piece; or the end.
Token = namedtuple("Token", "kind text start end")

Collection = namedtuple("Collection", "kind name columns start")
Rule = namedtuple("Rule", "head body start")
Module = namedtuple("Module", "collections rules")

# A part of a rule's body. An operator has parts below it and needs columns of them, each told by the number of
# the part and the name; `gives` are the columns that it names itself. A name alone gives a collection's.
Part = namedtuple("Part", "operator parts needs gives start end")

# Where a text goes wrong: the tokens before, the one that can't stand there, what may, the operators that are open
# there, and whether one more can be opened.
Fault = namedtuple("Fault", "before token wanted within has_room")


class Wrong(Exception):
    """The text has no token here that a module may have."""


# ---- tokens


def is_good(kind, piece):
    """Whether a piece that has the form of a token is within its bounds."""
    if kind == "integer":
        return len(piece) < 99 and -(1 << 63) <= int(piece) < 1 << 63
    try:
        held = re.sub(rb"\\(?:x..|.)", b"x", piece.strip(b'"') if kind != "text" else piece[1:-1])
        return len(held) <= MOST_BYTES and held.decode() is not None
    except UnicodeDecodeError:
        return False


def token_at(data, start):
    """The token that begins at a byte."""
    found = TOKEN.match(data, start)
    if not found:
        text = data[start : start + 4].decode(errors="replace")[:1]
        return Token("bad" if text else "end", text, start, start + 1)
    kind, text = found.lastgroup, found[0].decode(errors="replace")
    if kind == "name" and text in RESERVED:
        kind = "word"
    return Token(kind if is_good(kind, found[0]) else "bad", text, start, found.end())


def tokens_of(data):
    """The tokens of a text, up to the first bad one or the end."""
    found, end = [], 0
    while not found or found[-1].kind not in ("bad", "end"):
        found.append(token_at(data, BLANKS.match(data, end).end()))
        end = found[-1].end
    return found


# ---- the grammar


class Reader:
    """Reads a text token by token, and keeps what it looked for in vain at the next one."""

    def __init__(self, data):
        self.tokens, self.place, self.wanted, self.within = tokens_of(data), 0, [], []
        self.levels, self.comparisons = 0, 0

    @property
    def next(self):
        return self.tokens[self.place]

    def accept(self, *wanted):
        """The next token, where it is one of these, and else nothing."""
        token = self.next
        is_mark = token.kind in ("word", "mark")
        is_bound = token.kind == "integer" and int(token.text) > 0
        found = {token.text if is_mark else token.kind, "bound" if is_bound else None}
        if found.isdisjoint(wanted):
            self.wanted += wanted
            return None
        self.place, self.wanted = self.place + 1, []
        return token

    def expect(self, *wanted):
        if token := self.accept(*wanted):
            return token
        raise Wrong

    def has_room(self):
        """Whether one more level can be opened."""
        return self.levels < MOST_LEVELS

    def names(self, end):
        """Names with commas between them, up to a mark."""
        names = [self.expect("name").text]
        while self.accept(","):
            names.append(self.expect("name").text)
        self.expect(end)
        return names

    def module(self):
        self.expect("module"), self.expect("name"), self.expect(";")
        collections, rules = [], []
        while token := self.accept(*KINDS_OF_COLLECTIONS):
            collections.append(self.collection(token))
        self.rules(rules)
        self.expect("end")
        return Module(collections, rules)

    def rules(self, found):
        while head := self.accept("name"):
            self.expect("<=")
            found.append(Rule(head.text, self.expression(), head.start))
            self.expect(";")

    def collection(self, kind):
        name = self.expect("name").text
        self.expect("(")
        columns = self.names(")")
        self.expect(";")
        return Collection(kind.text, name, columns, kind.start)

    def expression(self):
        if name := self.accept("name"):
            return Part("", [], [], [name.text], name.start, name.end)
        operators = {"select": self.select, "project": self.project, "join": self.join, "notin": self.join,
                     "group": self.group, "atleast": self.atleast}
        operator = self.expect(*(operators if self.has_room() else ()))
        self.levels += 1
        self.expect("(")
        self.within.append(operator.text)
        parts = [self.expression()]
        self.expect(",")
        needs, gives = operators[operator.text](parts)
        end = self.expect(")").end
        self.within.pop()
        self.levels -= 1
        return Part(operator.text, parts, needs, gives, operator.start, end)

    def select(self, _):
        self.comparisons, needs = 0, []
        self.predicate(needs)
        return needs, []

    def project(self, _):
        items = [self.item()]
        while self.accept(","):
            items.append(self.item())
        return [(0, name) for name, _ in items], [given for _, given in items]

    def item(self):
        name = self.expect("name").text
        return name, self.expect("name").text if self.accept("as") else name

    def join(self, parts):
        parts.append(self.expression())
        needs = []
        while self.accept(","):
            left, _, right = self.expect("name"), self.expect("="), self.expect("name")
            needs += [(0, left.text), (1, right.text)]
        return needs, []

    def group(self, _):
        keys = self.keys()
        of = []
        if not self.accept("count"):
            self.expect("sum", "min", "max"), self.expect("(")
            of.append(self.expect("name").text)
            self.expect(")")
        self.expect("as")
        return [(0, it) for it in keys + of], [*keys, self.expect("name").text]

    def atleast(self, _):
        keys = self.keys()
        self.expect("bound")
        return [(0, it) for it in keys], keys

    def keys(self):
        self.expect("[")
        keys = [] if self.accept("]") else self.names("]")
        self.expect(",")
        return keys

    def predicate(self, needs):
        self.unit(needs)
        while self.comparisons < MOST_COMPARISONS and self.accept("and", "or"):
            self.unit(needs)

    def unit(self, needs):
        opened = self.accept("not", "(") if self.has_room() else None
        if not opened:
            self.comparison(needs)
            return
        self.levels += 1
        if opened.text == "not":
            self.unit(needs)
        else:
            self.predicate(needs)
            self.expect(")")
        self.levels -= 1

    def comparison(self, needs):
        sides = [self.expect("name", "integer", "text")]
        self.expect(*COMPARISONS)
        sides.append(self.expect("name", "integer", "text"))
        self.comparisons += 1
        needs += [(0, it.text) for it in sides if it.kind == "name"]


def parts_of(part):
    """A part and all below it, those below first."""
    return [it for below in part.parts for it in parts_of(below)] + [part]


def module_of(data):
    """The module of a text, where it is one."""
    return Reader(data).module()


def fault_of(data):
    """Where a text goes wrong, or nothing."""
    reader = Reader(data)
    try:
        reader.module()
    except Wrong:
        wanted = list(dict.fromkeys(reader.wanted))
        return Fault(reader.tokens[: reader.place], reader.next, wanted, reader.within, reader.has_room())
    return None


def told_of(wanted):
    """What may stand at a place, in words."""
    told = [CLASSES.get(it, f"`{it}`") for it in wanted]
    return " or ".join(filter(None, [", ".join(told[:-1]), told[-1]]))
