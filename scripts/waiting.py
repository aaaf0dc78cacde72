"""Which partitions of what an instance holds wait, and for the seals of which streams."""
import json
import re

from streams import sides

TEXT_OR_NUMBER = re.compile(r'"(?:\\.|[^"\\])*"|-?\d+')


def shown(value):
    """A value as a report writes it."""
    if isinstance(value, int):
        return str(value)
    written = value.replace("\\", "\\\\").replace('"', '\\"')
    return '"' + re.sub(r"[\x00-\x1f\x7f]", lambda it: f"\\x{ord(it[0]):02x}", written) + '"'


class Waiting:
    """The seals that go over the streams of a topology, over data."""

    def __init__(self, wiring, derivation, data_text):
        self.wiring, self.derivation, self.data = wiring, derivation, json.loads(data_text)

    # ---- columns and keys

    def columns(self, stream):
        table = self.wiring.streams[stream]
        if "columns" in table:
            return table["columns"]
        component, port = table["to"][0].split(".")
        return sides(self.wiring.components[component], "input")[port]

    def key(self, component):
        """The key of a component, in the order in which its names first occur."""
        wanted = self.wiring.components[component].get("key", [])
        known = [it for table in self.wiring.streams.values() for it in table.get("columns", [])]
        return sorted(wanted, key=lambda it: known.index(it) if it in known else len(known))

    def into(self, component):
        """The streams into each port of a component."""
        ports = {}
        for stream, table in self.wiring.streams.items():
            for place in table.get("to", []):
                if place.split(".")[0] == component:
                    ports.setdefault(place.split(".")[1], []).append(stream)
        return ports

    # ---- seals

    def carries(self, stream, key):
        """Whether a stream ends its partitions by this key with seals."""
        table = self.wiring.streams[stream]
        if "from" not in table:
            return set(table.get("seal", [])) == set(key)
        component, output = table["from"].split(".")
        if set(self.key(component)) != set(key) or not set(key) <= set(self.columns(stream)):
            return False
        notes = [(port, note) for port, to, note in self.derivation.paths(component) if to == output]
        into = self.into(component)
        is_pass = self.wiring.components[component]["mode"] == "pass"
        return bool(notes) and all(
            self.holds(note, key, is_pass) and port in into and all(self.carries(it, key) for it in into[port])
            for port, note in notes
        )

    @staticmethod
    def holds(note, key, is_pass):
        """Whether seals of a key go on over a path with this note."""
        gate = re.search(r"\[(.*)\]", note)
        return not gate or not is_pass and set(key) <= set(gate[1].split(", "))

    def carrying(self, component):
        """The streams into those ports of a component that carry its key."""
        key = self.key(component)
        ports = [streams for streams in self.into(component).values() if all(self.carries(it, key) for it in streams)]
        return [it for streams in ports for it in streams]

    def seals(self, stream, key):
        """The partitions of which a stream sends a seal."""
        table = self.wiring.streams[stream]
        if "from" in table:
            feeds = self.carrying(table["from"].split(".")[0])
            return set.intersection(*(self.seals(it, key) for it in feeds)) if feeds else set()
        entry = self.data.get(stream, [])
        rows, parts = (entry, []) if isinstance(entry, list) else (entry.get("rows", []), entry.get("parts", []))
        places = [table["columns"].index(it) for it in key]
        return {tuple(shown(row[at]) for at in places) for row in rows} | {tuple(map(shown, it)) for it in parts}

    def held(self, component, replica, contents):
        """The partitions that wait at an instance, each with the streams that send no seal of it. With no stream
        that carries the key no partition is ever whole: then the one entry has no partition, and all streams."""
        key = self.key(component)
        feeds = self.carrying(component)
        if not feeds:
            return [(None, sorted({it for streams in self.into(component).values() for it in streams}))]
        seals = {it: self.seals(it, key) for it in feeds}
        heard = set()
        for lane in self.wiring.lanes():
            if (lane.component, lane.receiver) == (component, replica) and set(key) <= set(self.columns(lane.stream)):
                places = [self.columns(lane.stream).index(it) for it in key]
                records = contents[lane.stream][lane.sender]
                heard |= {tuple(TEXT_OR_NUMBER.findall(it)[at] for at in places) for it in records}
        lacking = [(it, [stream for stream in feeds if it not in seals[stream]]) for it in sorted(heard)]
        return [(partition, streams) for partition, streams in lacking if streams]
