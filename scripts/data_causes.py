"""What is behind a refusal of data: which value a row has that it can't have, or which name is no source's."""
import json

from causes import attributes, lacking
from values import fault_of_row


def whole_numbers(text):
    """An integer as data may write it: `-0` is none."""
    return -0.0 if text == "-0" else int(text)


def form_of(topology, source, is_part):
    """The columns of a row or of a part of a source, and their types."""
    entry = next(it for it in topology["source"] if it["name"] == source)
    types = dict(zip(entry["columns"], entry.get("types", ["any"] * len(entry["columns"]))))
    columns = [it for it in attributes(topology) if it in entry["seal"]] if is_part else entry["columns"]
    return columns, [types[it] for it in columns]


def told_of(topology, text, source, number):
    """What is wrong with the row of a source that has this number, where parts go on behind rows; or with its entry."""
    sources = [it["name"] for it in topology.get("source", [])]
    if source not in sources:
        return lacking("the topology", "source", source, sources)
    entry = json.loads(text, parse_int=whole_numbers)[source]
    lists = entry if isinstance(entry, dict) else {"rows": entry}
    rows, parts = lists.get("rows", []), lists.get("parts", [])
    if number:
        is_part = number > len(rows)
        return fault_of_row([*rows, *parts][number - 1], *form_of(topology, source, is_part))
    is_sealed = "seal" in next(it for it in topology["source"] if it["name"] == source)
    allowed = ["rows", "parts"] if is_sealed else ["rows"]
    others = [it for it in lists if it not in allowed]
    if others == ["parts"]:
        return f"{source} isn't sealed, so it has no parts"
    return lacking(f"the entry of {source}", "key", others[0], allowed) if others else f"the entry of {source} is no list of rows"
