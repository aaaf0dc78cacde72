"""The events behind a record: what each of them carries, and which are there only so that later messages have their
numbers. Events name messages by their numbers, so an event on which nothing else depends can't just be left out."""
import os
import re

from calling import INCOMPLETE, YES
from streams import Wiring, contents_of

# How many seals may stand among the messages that are left out.
SEALS = (0, 1, 2)


def messages_of(event):
    """The messages of an event, each as a stream, a replica and a number."""
    words = event.split()
    if words[0] == "batch":
        return [tuple(words[at : at + 3]) for at in range(3, len(words), 4)]
    return [tuple(words[1:4])] if words[0] in ("deliver", "order") else []


def with_numbers(event, numbers):
    """An event whose messages have other numbers."""
    words = event.split()
    at = 5 if words[0] == "batch" else 3
    for number in numbers:
        words[at] = str(number)
        at += 4
    return " ".join(words)


class Behind:
    """The events behind a record of a stream's replica, in their order."""

    def __init__(self, calls, files, folder, topology, events):
        self.calls, self.files, self.events = calls, files, events
        self.schedule = os.path.join(folder, "tried.schedule")
        self.wiring = Wiring(topology)
        self.contents = [self.run(events[:count]) for count in range(len(events) + 1)]
        self.records = {it: self.record(events, it) for event in events for it in messages_of(event)}

    def lay(self, events):
        with open(self.schedule, "w", encoding="utf-8") as file:
            file.write("".join(f"{it}\n" for it in events))
        return self.schedule

    def run(self, events):
        """What each replica of a stream has put out after these events, or nothing where they can't happen so."""
        text, status = self.calls.answer("run", *self.files, self.lay(events))
        if status not in (YES, INCOMPLETE):
            return None
        return {(stream, str(number)): set(records) for stream, replicas in contents_of(text)[0].items()
                for number, records in enumerate(replicas)}

    def record(self, events, message):
        """The record of a message, and nothing of a seal."""
        text, status = self.calls.answer("why", *self.files, self.lay(events), *message)
        found = re.match(r"why \S+ \d+ (.*)", text.decode())
        return found[1] if status == YES and found else None

    # ---- what an event carries

    def entry(self, at):
        """The event that a `take` takes: of all `order` events of its component the one with as many before it."""
        words = self.events[at].split()
        orders = [number for number, it in enumerate(self.events) if re.match(rf"order .* to {words[1]}\.", it)]
        return orders[sum(it.split() == words for it in self.events[:at])]

    def carried(self, at):
        if self.events[at].startswith("take "):
            return self.carried(self.entry(at))
        return ", ".join(self.records[it] or "a seal" for it in messages_of(self.events[at]))

    # ---- which are there for the numbers of others

    def put_out(self, at, lane):
        """How many records a replica of a stream has put out by an event."""
        return len(self.contents[at + 1][lane] - self.contents[at][lane])

    def source_of(self, at, message):
        """The event by which a message was put out, as far as records tell, at the latest the one before its own."""
        record = self.records[message]
        return next((it for it in range(at) if record and record in self.contents[it + 1][message[:2]]), at)

    def number(self, at, message, left_out, seals):
        """The number that a message of an event has without those that are left out, or nothing where it goes too."""
        stream, lane = message[0], message[:2]
        if self.wiring.is_source(stream):
            return int(message[2])
        source = self.source_of(at, message)
        gone = [it for it in left_out if it < source and (self.put_out(it, lane) or seals)]
        shift = sum(self.put_out(it, lane) for it in gone) + (seals if gone and self.wiring.may_seal(stream) else 0)
        return None if source in left_out or shift > int(message[2]) else int(message[2]) - shift

    def without(self, left_out, seals):
        """The other events with the numbers that their messages then have; nothing where one of these goes too."""
        found, moved = [], []
        for at in [it for it in range(len(self.events)) if it not in left_out]:
            messages = messages_of(self.events[at])
            numbers = [self.number(at, it, left_out, seals) for it in messages]
            if None in numbers:
                return None
            found.append(with_numbers(self.events[at], numbers))
            moved += [((*it[:2], str(number)), self.records[it]) for it, number in zip(messages, numbers) if str(number) != it[2]]
        # What has another number has to be the same message.
        return found if all(self.record(found, message) == record for message, record in moved) else None

    def is_yielded(self, wanted, left_out):
        """Whether the record is there without some events; the others then have their own numbers."""
        lane, record = wanted
        for seals in SEALS if any(map(self.wiring.may_seal, self.wiring.streams)) else SEALS[:1]:
            events = self.without(left_out, seals)
            if events is not None and record in (self.run(events) or {}).get(lane, ()):
                return True
        return False

    def for_numbers(self, wanted):
        """The events that are there only for the numbers of others: the rest yields the record without them."""
        left_out = set()
        for at, event in enumerate(self.events):
            takes = [it for it, other in enumerate(self.events) if event.startswith("order ") and other.startswith("take ") and self.entry(it) == at]
            if not event.startswith("take ") and self.is_yielded(wanted, left_out | {at, *takes}):
                left_out |= {at, *takes}
        return left_out
