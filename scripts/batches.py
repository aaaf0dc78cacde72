"""Schedules with batches, made step by step: of what the run so far has sent, some is delivered at one place,
in one batch, until nothing is left. Places and messages are chosen by chance."""
import os
import random

from calling import INCOMPLETE, YES
from streams import contents_of

# The most groups of a line; after how many steps all that waits at a place goes at once, and where it ends.
MOST_GROUPS, MANY_STEPS, MOST_STEPS = 64, 30, 300

# How many lines are tried at once, where it isn't known how many can follow.
TRIED = 50


def is_delivered(text):
    """Whether nothing is left by what `run` writes; something may be held."""
    return text.endswith((b"\ncomplete\n", b"\nleft 0\nincomplete\n"))


class Batches:
    """Makes schedules of a topology over data. `calls` runs the program, over files in a folder."""

    def __init__(self, calls, wiring, folder, topology, data):
        self.calls, self.wiring, self.files = calls, wiring, (topology, data)
        self.tried = os.path.join(folder, "tried.schedule")
        # What every schedule begins with, and how many messages each source has, where that is known.
        self.start, self.of_sources = self.run([]), {}

    def run(self, lines):
        """What the run of a schedule with these lines gives, and its status."""
        with open(self.tried, "w", encoding="utf-8") as file:
            file.write("".join(f"{line}\n" for line in lines))
        return self.calls.answer("run", *self.files, self.tried)

    def following(self, lines, more):
        """How many of some lines can follow others, up to one that can't happen."""
        text, status = self.run(lines + more)
        words = text.decode().split()
        is_refused = status not in (YES, INCOMPLETE) and words[:2] == ["refused", "Event"]
        return int(words[2]) - 1 - len(lines) if is_refused else len(more)

    def schedule(self, seed):
        """The lines of a schedule, what its run gives, and its status; or nothing where a limit is met."""
        return Making(self, random.Random(seed)).made()


class Making:
    """One schedule, as far as it is made: of each lane how many of its sender's messages are known, and which of
    them were delivered."""

    def __init__(self, batches, chance):
        self.batches, self.wiring, self.chance, self.lines = batches, batches.wiring, chance, []
        self.delivered = {it: set() for it in batches.wiring.lanes()}
        self.known = {(it.stream, it.sender): 0 for it in self.delivered}
        self.share = chance.choice([0.2, 0.5, 0.8, 1.0])
        # In every second schedule, by chance, one stream is starved: it waits until nothing else is left.
        self.starved = chance.choice([None, chance.choice(list(batches.wiring.streams))])

    def made(self):
        for step in range(MOST_STEPS):
            text, status = self.batches.run(self.lines) if self.lines else self.batches.start
            if status not in (YES, INCOMPLETE):
                break
            self.learn(text)
            if not self.waiting() and (is_delivered(text) or not self.find()):
                if is_delivered(text) or self.starved is None:
                    return self.lines, text, status
                self.starved = None
            if waiting := self.waiting():
                self.deliver(waiting, self.share if step < MANY_STEPS else 1.0)
        return None

    def learn(self, text):
        """A replica has sent at least as many messages as it has records."""
        for stream, replicas in contents_of(text)[0].items():
            for sender, records in enumerate(replicas):
                if (stream, sender) in self.known:
                    self.known[stream, sender] = max(self.known[stream, sender], len(records))

    def find(self):
        """Has the logs taken, and looks for seals, of which no record tells; whether anything was found."""
        before, known = len(self.lines), dict(self.known)
        for component in filter(self.wiring.is_ordered, self.wiring.components):
            # All replicas took the same so far.
            taken = self.all_following(lambda _: f"take {component} 0")
            self.lines += [f"take {component} {it}" for it in self.wiring.replicas(component) for _ in range(taken)]
        for lane in {(it.stream, it.sender): it for it in self.delivered if self.wiring.may_seal(it.stream)}.values():
            sender = lane.stream, lane.sender
            if sender not in self.batches.of_sources:
                start = self.known[sender]
                self.known[sender] += self.all_following(lambda it: self.line([(lane, start + it)]))
            self.known[sender] = self.batches.of_sources.get(sender, self.known[sender])
            if self.wiring.is_source(lane.stream):
                self.batches.of_sources[sender] = self.known[sender]
        return len(self.lines) > before or self.known != known

    def all_following(self, line):
        """How many of the lines with the numbers 0, 1, 2 and so on can follow."""
        count, tried = 0, TRIED
        while tried == TRIED:
            tried = self.batches.following(self.lines, [line(it) for it in range(count + TRIED)]) - count
            count += tried
        return count

    def waiting(self):
        """What is known and not delivered, but of a stream that is starved, by the place where it goes: a component,
        and a replica or its log."""
        found = {}
        for lane, delivered in self.delivered.items():
            if lane.stream == self.starved:
                continue
            for index in range(self.known[lane.stream, lane.sender]):
                if index not in delivered:
                    found.setdefault((lane.component, lane.receiver), []).append((lane, index))
        return found

    def deliver(self, waiting, share):
        """Delivers a share of what waits at one place, in batches, or into its log."""
        component, receiver = place = self.chance.choice(list(waiting))
        chosen = waiting[place]
        self.chance.shuffle(chosen)
        chosen = chosen[: max(1, round(share * len(chosen)))]
        for lane, index in chosen:
            self.delivered[lane].add(index)
        size = 1 if receiver is None else MOST_GROUPS
        self.lines += [self.line(chosen[start : start + size]) for start in range(0, len(chosen), size)]

    @staticmethod
    def line(messages):
        """The event that delivers some messages at one place, or puts the one into its log."""
        lane, index = messages[0]
        if lane.receiver is None:
            return f"order {lane.stream} {lane.sender} {index} to {lane.component}.{lane.port}"
        groups = " ".join(f"{lane.stream} {lane.sender} {index} {lane.port}" for lane, index in messages)
        return f"batch {lane.component} {lane.receiver} {groups}"
