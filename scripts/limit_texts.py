"""What scripts/limits lays into files, and what the program writes of it, by the rules."""
import os

DONE, REFUSED, USAGE, READ_FAULT, WRITE_FAULT, INCOMPLETE = range(6)

# The most bytes of each file, rows of data, rows of a set, messages, lines of a schedule and made events.
TOPOLOGY_BYTES, MODULE_BYTES, DATA_BYTES, SCHEDULE_BYTES = 262_144, 65_536, 16_777_216, 67_108_864
DATA_ROWS, SET_ROWS, MESSAGES, LINES, EVENTS = 65_536, 262_144, 262_144, 1_000_000, 1_000_000

# The deepest nesting that the readers of TOML and of JSON take; of TOML also the most parts of a key.
TOML_DEPTH, JSON_DEPTH = 80, 127

USAGE_LINE = (
    b"usage: blazes label|derive|plan TOPOLOGY | run TOPOLOGY DATA SCHEDULE | make TOPOLOGY DATA [--seed N]"
    b" | soak [--seed N] [--count N] | shard TOPOLOGY COMPONENT COLUMN BOUND.. | restart TOPOLOGY DATA SCHEDULE"
    b" | witness TOPOLOGY DATA SCHEDULE SCHEDULE | why TOPOLOGY DATA SCHEDULE STREAM REPLICA INDEX\n"
)

COPY = "module copy; input given(x); output passed(x); passed <= given;\n"
NOTHING = "module nothing; input given(x); output kept(x); kept <= select(given, x < 0);\n"
ALONE = 'format = 2\nsource = [{ name = "t", columns = ["x"] }]\n'
COPIED = (
    'format = 2\nsource = [{ name = "s", columns = ["x"], to = ["c.given"] }]\n'
    'component = [{ name = "c", module = "m.bloom" }]\nstream = [{ name = "passed", from = "c.passed" }]\n'
)
WITH_MODULE = 'format = 2\ncomponent = [{ name = "c", module = "m.bloom" }]\n'


class Folder:
    """The folder in which the program is called."""

    def __init__(self, path):
        self.path = path

    def at(self, name):
        name = name if isinstance(name, bytes) else name.encode()
        return os.path.join(self.path.encode(), name)

    def lay(self, name, text):
        with open(self.at(name), "wb") as file:
            file.write(text if isinstance(text, bytes) else text.encode())


def filled(text, size, with_byte=" "):
    """The text with so many bytes, the last of which are these."""
    return text + with_byte * (size - len(text))


def refused(what):
    return REFUSED, b"refused " + (what if isinstance(what, bytes) else what.encode()) + b"\n"


def shown(text):
    """The bytes of a text or a name as the program shows them, without quotes."""
    text = text if isinstance(text, bytes) else text.encode()
    plain = {0x22: b'\\"', 0x5C: b"\\\\"}
    return b"".join(
        plain.get(byte) or (b"\\x%02x" % byte if byte < 0x20 or byte == 0x7F else bytes([byte])) for byte in text
    )


def unread(name):
    return READ_FAULT, b"cannot read " + shown(name) + b"\n"


def held(name, replica, rows):
    """What `run` writes of what a stream holds."""
    return f"{name} {replica} {len(rows)}\n" + "".join(f"  ({', '.join(map(str, row))})\n" for row in rows)


def data(**sources):
    """Data with these rows of numbers."""
    entries = (f'"{name}": [{",".join(str(list(row)) for row in rows)}]' for name, rows in sources.items())
    return "{" + ",\n".join(entries) + "}\n"


def draws(seed):
    """The numbers that `make` draws."""
    while True:
        seed = (seed * 6364136223846793005 + 1442695040888963407) % 2**64
        yield seed >> 33


def is_repeated(number):
    return number // 65_536 % 8 == 0


class Lane:
    """What a receiver can be given of a list: the first eight messages that it hasn't heard."""

    def __init__(self, event, count, behind=None):
        self.event, self.count, self.behind = event, count, behind
        self.open, self.next = [], 0
        self.fill()

    def fill(self):
        while len(self.open) < 8 and self.next < self.count:
            self.open.append(self.next)
            self.next += 1

    def deliver(self, place):
        """The event at a place; a copy then puts its message out into the lane behind."""
        index = self.open.pop(place)
        self.fill()
        if self.behind is not None:
            self.behind.count += 1
            self.behind.fill()
        return self.event % index


def made(lanes, seed):
    """The schedule that `make` writes where all works are deliveries in these lanes."""
    for number in draws(seed):
        count = sum(len(lane.open) for lane in lanes)
        if count == 0:
            return
        place = number % count
        for lane in lanes:
            if place < len(lane.open):
                break
            place -= len(lane.open)
        event = lane.deliver(place)
        yield event
        if is_repeated(number):
            yield event
