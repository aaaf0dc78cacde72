"""What is behind a refusal of a topology: which name isn't known, and which are; which columns, replicas and names
don't go together; and the cure of the page of refusals."""
import difflib
import os
import re

from streams import sides


def listed(names):
    return ", ".join(names) or "none"


def lacking(owner, kind, name, names):
    """That something has no such name, and which it has, the nearest first."""
    names = list(names)
    nearest = difflib.get_close_matches(name, names, 1)
    return f"{owner} has no {kind} {name}; it has {listed(nearest + [it for it in names if it not in nearest])}"


def unknown_side(topology, place, side):
    """What is wrong with a `component.port`, or a `component.output`, or nothing."""
    name, port = place.split(".")
    components = {it["name"]: it for it in topology.get("component", [])}
    if name not in components:
        return lacking("the topology", "component", name, components)
    known = sides(components[name], side)
    return None if port in known else lacking(name, {"input": "port"}.get(side, side), port, known)


def attributes(topology):
    """The names of all columns of sources and ports."""
    found = {it: None for source in topology.get("source", []) for it in source["columns"]}
    for component in topology.get("component", []):
        for columns in sides(component, "input").values():
            found.update(dict.fromkeys(columns))
    return found


def unknown_in(topology, kind, number):
    """The first name of an entry that isn't known, as a sentence, or nothing."""
    entry = topology[kind][number - 1]
    owner = entry.get("name", f"fd {number}")
    names = []
    if kind == "source":
        names += [(owner, "column", it, entry["columns"]) for it in entry.get("seal", [])]
    if kind == "component":
        stock = [entry["split"]] if "split" in entry else []
        names += [(owner, "column", it, entry["columns"]) for it in stock + entry.get("keys", [])]
        names += [("the topology", "column", it, attributes(topology)) for it in entry.get("key", [])]
        for note in entry.get("notes", []):
            names += [(owner, "port", note["from"], sides(entry, "input")), (owner, "output", note["to"], sides(entry, "output"))]
            names += [("the topology", "column", it, attributes(topology)) for it in note.get("gate", [])]
    if kind == "fd":
        ends = [[it] if isinstance(it, str) else it for it in (entry["from"], entry["to"])]
        names += [("the topology", "column", it, attributes(topology)) for end in ends for it in end]
    for words in names:
        if words[2] not in words[3]:
            return lacking(*words)
    places = [(entry["from"], "output")] if kind == "stream" else []
    places += [(it, "input") for it in entry.get("to", [])] if kind in ("source", "stream") else []
    return next(filter(None, (unknown_side(topology, *it) for it in places)), None)


def unequal_columns(topology, kind, number):
    """The columns of a source, and of the first port that has others, as a sentence, or nothing."""
    entry = topology[kind][number - 1]
    components = {it["name"]: it for it in topology.get("component", [])}
    if kind == "component":
        own = {"split": ["at", "word"], "number": ["n"]}[entry["stock"]]
        return f"{entry['name']} adds {listed(own)}, and has {listed([it for it in own if it in entry['columns']])} among its columns"
    own = entry.get("columns")
    if kind == "stream":
        name, output = entry["from"].split(".")
        own = sides(components[name], "output")[output]
    for place in entry.get("to", []) if own else []:
        name, port = place.split(".")
        columns = sides(components[name], "input")[port]
        if columns != own:
            return f"{entry['name']} has the columns {listed(own)}, and {place} has {listed(columns)}"
    return None


def unpaired_replicas(topology, kind, number):
    """The replicas of a stream's sender, and of the first receiver that they can't be paired with, or nothing."""
    entry = topology[kind][number - 1]
    components = {it["name"]: it for it in topology.get("component", [])}
    sender = entry["from"].split(".")[0]
    senders = components[sender].get("replicas", 1)
    for place in entry.get("to", []):
        receiver = place.split(".")[0]
        receivers = components[receiver].get("replicas", 1)
        if components[receiver].get("mode") != "order" and 1 not in (senders, receivers) and senders != receivers:
            return f"{sender} has {senders} replicas, and {receiver} has {receivers}"
    return None


def repeated(names):
    """The first of some names that stands twice, or nothing."""
    return next((it for at, it in enumerate(names) if it in names[:at]), None)


def twice_in(topology, kind, number):
    """What stands twice because of an entry, as a sentence, or nothing."""
    entry = topology[kind][number - 1]
    streams = topology.get("source", []) + topology.get("stream", [])
    others = topology[kind] if kind == "component" else streams
    earlier = others[: next(at for at, it in enumerate(others) if it is entry)] if kind != "fd" else []
    if "name" in entry and entry["name"] in [it["name"] for it in earlier]:
        return f"an earlier {'component' if kind == 'component' else 'source or stream'} is called {entry['name']} too"
    taken = {it["from"]: it["name"] for it in earlier if "from" in it}
    if kind == "stream" and entry["from"] in taken:
        return f"{entry['from']} has the stream {taken[entry['from']]}, which may go to more places"
    lists = {key: value for key, value in entry.items() if isinstance(value, list)}
    for key in ("inputs", "outputs"):
        lists[key] = [it["name"] for it in entry.get(key, [])]
    twice = [(key, repeated(value)) for key, value in lists.items()]
    return next((f"{key} has {name} twice" for key, name in twice if isinstance(name, str)), None)


def too_many_in(topology, kind, number):
    """What an entry has too many of, as a sentence, or nothing."""
    entry = topology[kind][number - 1]
    counts = {"columns": 8, "inputs": 8, "outputs": 8}
    over = [f"{len(entry[key])} {key}, and {most} are the most" for key, most in counts.items() if len(entry.get(key, [])) > most]
    replicas = entry.get("replicas", 1)
    if not 1 <= replicas <= 8:
        over.append(f"{replicas} replicas; there may be 1 to 8")
    if over:
        return f"{entry['name']} has {over[0]}"
    before = sum(it.get("replicas", 1) for it in topology[kind][:number]) if kind == "component" else 0
    most = {"source": 64, "component": 32, "fd": 64}.get(kind, 64)
    if before > 64:
        return f"with {entry['name']} there are {before} replicas in all, and 64 are the most"
    return f"this is {kind} {number}, and {most} are the most" if number > most else None


# ---- the page of refusals


def alike(refusal):
    """The words of a refusal, as the page has them: with its names of files, and without numbers of places."""
    words = re.sub(r"[^ ]*\.bloom", "m.bloom", refusal).replace("refused ", "").removeprefix("Second").split()
    return ["N" if re.fullmatch(r"[1-9]\d*", it) else it for it in words]


def cure_of(refusal, root):
    """What the pages of refusals tell to do about a refusal: the cure of the row that is most like it."""
    found, wanted = [], alike(refusal)
    for page in ("refusals.md", "diagnosis.md"):
        with open(os.path.join(root, "docs", page), encoding="utf-8") as file:
            for row in re.findall(r"^\| (`refused .*?) \| .*? \| (.*) \|$", file.read(), re.M):
                for shown in re.findall(r"`(refused [^`]*)`", row[0]):
                    words = alike(shown)
                    if words[0] == wanted[0]:
                        # Behind the first line of a row may stand other words for its last one.
                        words += re.findall(r"`(\w+)`", row[0])
                        found.append((likeness(wanted, words), row[1]))
    if not found:
        return None
    return without_links(max(found, key=lambda it: it[0])[1])


def without_links(text):
    """A text of a page as a terminal shows it."""
    return re.sub(r"\[([^\]]*)\]\([^)]*\)", r"\1", text)


def likeness(wanted, words):
    """How like two refusals are: how many words in front are equal, and then how many there are in both."""
    front = next((at for at, (one, other) in enumerate(zip(wanted, words)) if one != other), min(len(wanted), len(words)))
    return front, sum(it in words for it in wanted)
