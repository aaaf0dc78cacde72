"""Complete runs over data in which a stream differs, side by side, and the messages behind the first difference."""
import importlib.machinery
import importlib.util
import os
import re
import sys

from calling import YES
from cards import code, said
from picture import tag
from streams import contents_of

# Beside a record that the other run lacks, and beside one that another replica of its run lacks.
NOT_IN_OTHER, NOT_IN_ALL = "*", "+"


def script(name):
    """Another script, for what it does."""
    path = os.path.join(os.path.dirname(os.path.realpath(__file__)), name)
    loader = importlib.machinery.SourceFileLoader(name.replace("-", "_"), path)
    module = importlib.util.module_from_spec(importlib.util.spec_from_loader(loader.name, loader))
    loader.exec_module(module)
    return module


class Files:
    """A topology and data, whose schedules are written into a folder."""

    def __init__(self, calls, topology, data, folder):
        self.calls, self.names, self.folder = calls, (topology, data), folder

    def schedule(self, name, lines):
        path = os.path.join(self.folder, f"{name}.schedule")
        with open(path, "w", encoding="utf-8") as file:
            file.write("".join(f"{line}\n" for line in lines))
        return path

    def contents(self, lines):
        """What the streams have after the run of some lines, for each replica."""
        return contents_of(self.calls.answer("run", *self.names, self.schedule("tried", lines))[0])[0]

    def record(self, lines, message):
        """The record of a message, which is a stream, a replica and an index."""
        text, status = self.calls.answer("why", *self.names, self.schedule("tried", lines), *message)
        found = re.match(r"why \S+ \d+ (.*)", text.decode())
        return found[1] if status == YES and found else "a seal"


def seen_in_runs(files, wanted, seeds):
    """What vary sees of each stream, until the first of the wanted ones was seen to vary."""
    vary, seen, is_told = script("vary"), {}, sys.stderr.isatty()
    for number, (seed, lines, text) in enumerate(vary.runs(files.calls, *files.names, seeds), 1):
        contents, is_complete = contents_of(text)
        for stream, records in contents.items():
            seen.setdefault(stream, vary.Seen()).add(seed, records, lines, is_complete)
        if is_told:
            print(f"\rpage: {number} of {2 * seeds} runs", end="", file=sys.stderr, flush=True)
        first = seen[wanted[0]]
        if first.other and (first.apart or len(contents[wanted[0]]) == 1):
            break
    if is_told:
        print(file=sys.stderr)
    return seen


def runs_apart(files, wanted, seeds):
    """The first stream that was seen to vary, and the schedules of the runs that show it; or nothing."""
    seen = seen_in_runs(files, wanted, seeds) if wanted else {}
    for stream in wanted:
        if seen[stream].other:
            schedules = [seen[stream].first[1], seen[stream].other]
            return stream, schedules + [it for it in [seen[stream].apart] if it and it not in schedules]
    return None


def told(files, wanted, seeds):
    """The runs that differ, as a part of a page."""
    found = runs_apart(files, wanted, seeds)
    if not found:
        yield tag("p", "No two complete runs that differ were found. A label speaks of all schedules and all data.")
        return
    stream, schedules = found
    names = [files.schedule(name, lines) for name, lines in zip(("first", "second"), schedules)]
    differ = re.match(r"differ (\w+) (\d+) (first|second) (.*)\n", files.calls.report("witness", *files.names, *names).decode())
    first, replica, which, record = differ.groups()
    yield tag("p", f"Complete runs over the same data. {tag('b', said(first))} of replica {replica} has {code(record)} in the {which} "
              f"run, and not in the other. {code(NOT_IN_OTHER)} marks what the other run hasn't there, "
              f"{code(NOT_IN_ALL)} what not all replicas of a run have.")
    yield from side_by_side(list(dict.fromkeys([first, stream])), [files.contents(it) for it in schedules])
    yield from story(files, schedules[which == "second"], (first, int(replica), record))


def side_by_side(streams, runs):
    """What the streams have in the first two runs, and in a third one whose replicas differ where these don't."""
    names = ["the first run", "the second run", "a run whose replicas differ"]
    for stream in streams:
        yield f"<h3>{said(stream)}</h3><div class='two'>"
        for number, (name, contents) in enumerate(zip(names, runs)):
            other = runs[1 - number][stream] if number < 2 else contents[stream]
            yield f"<section><h4>{name}</h4>"
            yield from replicas_told(contents[stream], other)
            yield "</section>"
        yield "</div>"


def replicas_told(replicas, other):
    for number, records in enumerate(replicas):
        yield tag("div", f"replica {number}" + ("" if records else ": nothing"))
        if records:
            yield tag("ul", *(row(it, it not in other[number], any(it not in rest for rest in replicas)) for it in records), class_="rows")


def row(record, is_not_in_other, is_not_in_all):
    marks = NOT_IN_OTHER * is_not_in_other + NOT_IN_ALL * is_not_in_all
    return tag("li", tag("code", said(record), class_="apart" if marks else None), f" {marks}" if marks else "")


def story(files, schedule, difference):
    """The messages behind a record, each with the record that it carries and what is put out by it."""
    stream, replica, record = difference
    text = script("why-differ").why(files.calls, files.names, files.schedule("whole", schedule), stream, replica, record).decode()
    lines = re.findall(r"^  (\d+) (\S+ .*?)(?: carries .*)?$", text, re.M)
    events, had = [event for _, event in lines], {}
    yield tag("p", f"The messages behind it: {len(events)} of the {len(schedule)} lines of that schedule. Without any one of them the "
              "record isn't there; some may be there only so that a later message has its number.")
    yield "<ol class='steps'>"
    for number in range(1, len(events) + 1):
        has = files.contents(events[:number])
        had = had or files.contents([])
        carried = " and ".join(code(files.record(events, it)) for it in messages_of(events[number - 1]))
        yield f"<li>line {lines[number - 1][0]}: {code(events[number - 1])}" + (f" carries {carried}" if carried else "")
        yield from put_out(had, has, difference)
        yield "</li>"
        had = has
    yield "</ol>"


def messages_of(event):
    """The messages of an event: each a stream, a replica and an index."""
    words = event.split()
    if words[0] == "batch":
        return [words[at : at + 3] for at in range(3, len(words), 4)]
    return [words[1:4]] if words[0] in ("deliver", "order") else []


def put_out(had, has, difference):
    """The records that the streams have got."""
    for stream, replicas in has.items():
        for number, records in enumerate(replicas):
            for record in records:
                if record not in had[stream][number]:
                    class_ = "apart" if (stream, number, record) == difference else None
                    yield tag("div", f"{tag('b', said(stream))} of replica {number} puts out ", tag("code", said(record), class_=class_))
