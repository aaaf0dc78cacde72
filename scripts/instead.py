"""What to write in place of what stands where the text of a module goes wrong: the rows of a table in docs/refusals.md."""
import os
import re
from collections import namedtuple

HEADING = "## What people write where a module goes wrong\n"

# Which row of the table a fault is, by the row's first cell without its marks of code: what stands at the place;
# the tokens in front, with a blank between two; the operator that is open there, or `rule` where none is; and what
# may stand at the place. Two of these with a bar between them are either.
Case = namedtuple("Case", "row here before within wanted", defaults=("", "", ""))

KIND = "(?:input|output|table|scratch)"
CAPITALS = "(?i:select|project|join|notin|group|atleast)"

# The first that fits is taken.
CASES = [
    Case("a == 1", "=", "=$"),
    Case("a <> 1", ">", "<$"),
    Case("a = 1 && b = 2", r"[&|]|!(?!=)"),
    Case("'x'", "['`\u2018\u2019\u201c\u201d]"),
    Case('"x', '"', wanted="text"),
    Case("-- why", r"--|/[/*]"),
    Case("a > 0.5", r"\.", r"(?:^| )-?\d+$"),
    Case("t.a", r"\."),
    Case("a-b", "-", rf"(?:^module|{KIND}|{KIND} \w+ \((?: \w+ ,)*|\[(?: \w+ ,)*) \w+$"),
    Case("a + 1", r"[-+*/%]", r"\w$"),
    Case("table behind a rule", rf"{KIND}\b", wanted="end"),
    Case("Select(..)", r"\w", rf"(?:^|; )(?i:{KIND})$", "rule", "<="),
    Case("Select(..)", r"\(", rf"\b{CAPITALS}$"),
    Case("Select(..)", r"(?i:count|sum|min|max)\b", wanted="count"),
    Case("Select(..)", r"(?i:module)\b", "^$"),
    Case("t(a, b) <= in", r"\(", within="rule", wanted="<="),
    Case("t = in", r"=|:|<", within="rule", wanted="<="),
    Case("table t()", r"\)", rf"{KIND} \w+ \($"),
    Case("(a, b,)", r"[)\]]", ",$", wanted="name"),
    Case("table t(a int)", r"[A-Za-z_:]", rf"{KIND} \w+ \((?: \w+ ,)* \w+$", wanted=","),
    Case("in where a = 1", r"(?i:where|if|when|having)\b", within="rule", wanted=";"),
    Case("in, u", r",|\||(?:union|or|and)\b", "<= [^;]*$", "rule", ";"),
    Case("join(t, u on ..)", r"[A-Za-z_(\[]", within="join|notin", wanted=","),
    Case("join(t, u, a)", r"[),]", within="join|notin", wanted="="),
    Case("project(t, [a])", r"\[", within="project", wanted="name"),
    Case("project(t, 1 as b)", r'-?\d|"', within="project", wanted="name"),
    Case("group(t, a, ..)", r"\w", within="group|atleast", wanted="["),
    Case("count(*)", r"\(", "count$"),
    Case("sum(b)", r"[),]", within="group", wanted="as"),
    Case("avg(b)", r"[A-Za-z_]", within="group", wanted="count"),
    Case("count as n, sum(b) as s", ",", r"as \w+$", "group", ")"),
    Case("atleast(t, [a], 0)", r"-?\d", within="atleast", wanted="bound"),
    Case("select(in, a = 1", r";|\Z", wanted=")"),
    Case("in)", r"\)", within="rule", wanted=";"),
]


def bound_of(fault):
    """The row of the bound of the grammar that a token passes, or nothing."""
    token = fault.token
    if token.kind == "bad" and re.match(r"-?\d|\w", token.text):
        return "65 bytes" if re.match(r"[A-Za-z_]", token.text) else "65 bits"
    if not fault.has_room and token.text in ("select", "project", "join", "notin", "group", "atleast", "not", "("):
        return "33 levels"
    return "33 comparisons" if token.text in ("and", "or") and fault.within[-1:] == ["select"] and ")" in fault.wanted else None


def fits(case, fault, here, before):
    within = fault.within[-1] if fault.within else "rule"
    return (re.match(case.here, here) and re.search(case.before, before) and within in (case.within or within).split("|")
            and (not case.wanted or case.wanted in fault.wanted))


def row_of(fault, here):
    """The row of the table that a fault is, where `here` is the text from its place on, or nothing."""
    before = " ".join(it.text for it in fault.before)
    return bound_of(fault) or next((it.row for it in CASES if fits(it, fault, here, before)), None)


def rows(root):
    """The smallest causes and the cures of the table, by the first cells of its rows."""
    with open(os.path.join(root, "docs", "refusals.md"), encoding="utf-8") as file:
        section = file.read().partition(HEADING)[2].partition("\n## ")[0]
    found = re.findall(r"^\| (.*) \| (.*) \| (.*) \|$", section, re.M)
    return {row.replace("`", ""): (cause, cure) for row, cause, cure in found[1:]}


def cure_of(fault, here, root):
    """The cure of the row of a fault, or nothing."""
    return rows(root).get(row_of(fault, here), (None, None))[1]
