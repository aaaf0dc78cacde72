"""The parts of a page that tell in words what its pictures show: the key, the beginnings, the plan and the streams."""
import html
import re

from boxes import start_of
from explained import HELPS, MEANING, RULES, kind, mode_words, note_words
from hints import hint_lines
from picture import SVG, tag
from streams import changed
from styles import LOOKS


def said(value):
    return html.escape(str(value))


def code(value):
    return tag("code", said(value))


def chip(label):
    """A label in its colour."""
    return tag("b", said(label), class_=f"chip {kind(label)}", title=MEANING[kind(label)])


def table(heads, rows):
    """A table; the first cell of a row is its heading."""
    yield "<div class='wide'><table><thead><tr>" + "".join(tag("th", it, scope="col") for it in heads) + "</tr></thead><tbody>"
    for first, *rest in rows:
        yield "<tr>" + tag("th", first, scope="row") + "".join(tag("td", it or " ") for it in rest) + "</tr>"
    yield "</tbody></table></div>"


def key():
    """What the labels mean, each beside a piece of its line."""
    yield "<ul class='key'>"
    for label, words in MEANING.items():
        line = tag("svg", tag("path", d="M2 7h52", class_=f"edge {label}"), xmlns=SVG, class_="topology", width=56, height=14, aria_hidden="true")
        yield tag("li", line, chip(label), f" {words}")
    yield "</ul>"


# ---- where bad labels begin


def beginnings(state, derivation, tables, outputs, other):
    """A card for each beginning of one picture; `other` are the labels of the other picture."""
    begins = derivation.beginnings()
    if not begins:
        yield tag("p", "Nowhere: no label is bad.")
    for mark, it in zip(marks_of(begins), begins):
        component, output, uses, beside = it
        cycle = f", in the cycle {said(', '.join(component.cycle))}" if component.cycle else ""
        place = f"{tag('b', said(component.name))} (mode {said(component.mode)}, {replicas(component)}{cycle})"
        yield f"<section class='card' id='{state.name}-{mark}'>"
        yield tag("h4", f"{mark}. {said(output.stream)} {chip(output.label)} begins at {place}")
        yield from causes(uses, beside, state.labels)
        for member in component.cycle or [component.name]:
            streams = outputs_of(derivation, member) if component.cycle else [output.stream]
            yield from module(tables[member], [outputs[it] for it in streams])
        yield tag("p", f"{'After the plan' if state.name == 'before' else 'As it stands'}: {chip(other[output.stream])}")
        yield "</section>"


def marks_of(begins):
    return [str(it) for it in range(1, len(begins) + 1)]


def marks(derivation):
    """The mark of each stream at which a bad label begins; those of a cycle have one."""
    begins, found = derivation.beginnings(), {}
    for mark, (component, output, _, _) in zip(marks_of(begins), begins):
        names = [it for member in component.cycle for it in outputs_of(derivation, member)] or [output.stream]
        found.update(dict.fromkeys(names, mark))
    return found


def outputs_of(derivation, name):
    return [output.stream for it in derivation.components if it.name == name for output in it.outputs]


def replicas(component):
    return f"{component.replicas} replica{'s' if component.replicas > 1 else ''}"


def causes(uses, beside, labels):
    """The uses that make a label bad, what each means, and what helps."""
    yield "<ul>"
    for note, rule in dict.fromkeys((it.note, it.rule) for it in uses):
        alike = [it for it in uses if (it.note, it.rule) == (note, rule)]
        comes = ", ".join(f"{code(it.stream)} {chip(it.label)} into {code(it.port)}" for it in alike)
        yield tag("li", f"{comes}: {code(note)}, {note_words(note)}; {code(rule)}, {RULES[rule]}.")
    if not uses:
        yield tag("li", f"{code('ordered')}: {RULES['ordered']}.")
    yield "</ul>"
    if beside:
        came = ", ".join(f"{code(it)} {chip(labels[it])}" for it in beside)
        yield tag("p", f"Beside it {came} came in as bad, and has to be mended too.")
    helps = dict.fromkeys(HELPS[it] for it in [use.rule for use in uses] or ["ordered"])
    yield tag("p", f"What helps: {'; or '.join(helps)} (docs/remedies.md).")


def module(table, outputs):
    """The module of a component with the rules of some outputs marked, and those of what they read."""
    if "module" not in table:
        return
    with open(table["module"], encoding="utf-8") as file:
        text = file.read()
    marked = marked_lines(text, outputs)
    yield f"<details><summary>{code(table['module'])}, with the rules that make it</summary><pre>"
    for number, line in enumerate(text.rstrip("\n").split("\n")):
        yield (tag("mark", said(line), class_=marked[number]) if number in marked else said(line)) + "\n"
    yield "</pre></details>"


def marked_lines(text, outputs):
    """The lines of the rules of some outputs, and of those that these read."""
    bare = re.sub(r'#[^\n]*|"(?:\\.|[^"\\\n])*"', lambda it: " " * len(it[0]), text)
    rules = [(it[1], set(re.findall(r"\w+", it[2])), bare.count("\n", 0, it.start(1)), bare.count("\n", 0, it.end()))
             for it in re.finditer(r"(\w+)\s*<=([^;]*);", bare)]
    reached, more = set(outputs), set(outputs)
    while more:
        more = set().union(*(reads for head, reads, _, _ in rules if head in more)) - reached
        reached |= more
    return {line: "rule" if head in outputs else "behind" for head, _, start, end in rules if head in reached
            for line in range(start, end + 1)}


# ---- the plan and the streams


def plan(before, after, hints):
    """The modes of all components, and what becomes of the labels."""
    rows = []
    for old, new in zip(before.components, after.components):
        is_new = old.mode != new.mode
        rows.append([said(old.name), said(old.mode), tag("b", said(new.mode)) if is_new else said(new.mode), mode_words(new.mode)])
    yield from table(["component", "as it stands", "after the plan", "which means"], rows)
    better, worse = changed(before.labels, after.labels)
    yield tag("p", f"Better: {said(', '.join(better)) or 'nothing'}.")
    words = f"Worse: {said(', '.join(worse))}" if worse else "Worse: nothing."
    yield tag("p", tag("b", words), class_="worse") if worse else tag("p", words)
    more = [tag("li", tag("b", said(name)), said(f":{told}")) for name, _, told in (it.partition(":") for it in hint_lines(hints))]
    if more:
        yield tag("h3", "What the plan doesn't try and doesn't say") + tag("ul", *more)


def streams(topology, before, after):
    """Each stream with where it comes from, where it goes, and its labels."""
    rows = []
    for it in topology.get("source", []) + topology.get("stream", []):
        name = it["name"]
        comes = f"component {start_of(it)[1]}" if "from" in it else "a source"
        rows.append([code(name), said(comes), said(", ".join(it.get("to", []))) or "nowhere",
                     chip(before.labels[name]), chip(after.labels[name])])
    return table(["stream", "from", "to", "as it stands", "after the plan"], rows)
