"""Changes of single values in a TOML text, in which all else stays: comments, order and layout."""
import re

from toml_places import Places


def without(text, entry, keys):
    """The changes, each (from, to, text), that take the pairs of these keys out of an entry."""
    changes, is_first = [], True
    for number, (key, start, _, stop) in enumerate(entry.pairs):
        if key not in keys:
            is_first = False
        elif entry.is_inline and is_first:
            changes.append((start, entry.pairs[number + 1][1], ""))
        elif entry.is_inline:
            changes.append((entry.pairs[number - 1][3], stop, ""))
        else:
            from_line = text.rfind("\n", 0, start) + 1
            rest = re.compile(r"[ \t]*\r?(?:\n|\Z)").match(text, stop)
            is_alone = rest and not text[from_line:start].strip()
            changes.append((from_line, rest.end(), "") if is_alone else (start, stop, ""))
    return changes


def added(text, entry, lines):
    """The change that puts pairs behind the last one of an entry."""
    _, start, _, stop = entry.pairs[-1]
    if entry.is_inline:
        return stop, stop, "".join(f", {line}" for line in lines)
    from_line = text.rfind("\n", 0, start) + 1
    indent = re.match(r"[ \t]*", text[from_line:start])[0]
    end_of_line = "\r\n" if "\r\n" in text else "\n"
    to_line = re.compile(r"[^\n]*").match(text, stop).end()
    has_end = to_line < len(text)
    place = to_line + 1 if has_end else to_line
    return place, place, "".join(end_of_line * (not has_end) + indent + line + end_of_line * has_end for line in lines)


def written(value):
    """A text or a list of texts, as TOML has it."""
    return f'"{value}"' if isinstance(value, str) else "[" + ", ".join(map(written, value)) + "]"


def changes_of(text, entry, old, new, keys):
    """The changes that give an entry the values of `new` for these keys, and no other pairs of them."""
    wanted = {key: new[key] for key in keys if key in new}
    changes, lines = without(text, entry, set(keys) - set(wanted)), []
    for key, value in wanted.items():
        places = [(start, stop) for it, _, start, stop in entry.pairs if it == key]
        if not places:
            lines.append(f"{key} = {written(value)}")
        elif old[key] != value:
            changes.append((*places[0], written(value)))
    return changes + ([added(text, entry, lines)] if lines else [])


def changed_text(text, changes):
    """The text with all of these changes, of which no two meet."""
    for start, stop, put in sorted(changes, reverse=True):
        text = text[:start] + put + text[stop:]
    return text


def with_values(text, kind, number, old, new, keys):
    """The text in which the entry of this number, which is `old`, has the values of `new` for these keys."""
    entry = Places(text).entries[kind][number]
    return changed_text(text, changes_of(text, entry, old, new, keys))
