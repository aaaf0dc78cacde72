"""Reads the functions in crates/*/src, for the scripts that look through them."""
import dataclasses
import os
import re

# Comments, texts and single letters, in which a brace or a word is none of the language.
ASIDE = re.compile(r'//[^\n]*|"(?:\\.|[^"\\])*"|\'(?:\\[^\']+|[^\\\'\n])\'', re.S)
MARK = re.compile(r"[{}()\[\];]|\b(?:fn +\w+|impl\b|trait +\w+|mod +\w+)")
PUBLIC = re.compile(r"\bpub +(?:(?:unsafe|const|final|safe) +)*$")
CLAUSE = re.compile(r"\b(?:requires|ensures)\*?(?:\s+\w+)?\s*$")
GHOST = re.compile(r"\bghost\s+\w+\s*:\s*$")
TESTS = re.compile(r"#\[cfg\(test\)\]\s*$")
TYPE = re.compile(r"\bpub +(?:struct|enum) +(\w+)")


@dataclasses.dataclass
class Function:
    """A function of a file. Its owner is the type of the implementation or the trait in which it stands."""

    crate: str
    path: str
    line: int
    name: str
    owner: str
    # The trait that it is of: which is declared there, or which the implementation is of.
    trait: str
    # Whether `pub` stands in front, and whether it is one of a public trait.
    is_public: bool
    is_shown: bool
    is_test: bool
    has_clause: bool
    # What stands between the name and the body, without clauses, and the body.
    head: str
    body: str

    @property
    def full_name(self):
        return f"{self.owner}::{self.name}" if self.owner else self.name


def blanked(text):
    """The text with its asides as blanks, so that each place stays what it was."""
    return ASIDE.sub(lambda aside: re.sub(r"[^\n]", " ", aside[0]), text)


def end_of(text, start):
    """The place behind the brace that closes the one at a place."""
    depth = 0
    for brace in re.compile(r"[{}]").finditer(text, start):
        depth += 1 if brace[0] == "{" else -1
        if depth == 0:
            return brace.end()
    return len(text)


def signature(text, start):
    """What a function has behind its name: the place behind it, whether it has a clause, which is what stands
    in braces before the body, what else stands before the body, and the body."""
    depth, last, has_clause, head = 0, start, False, ""
    place = start
    while True:
        mark = re.compile(r"[{}()\[\];]").search(text, place)
        if mark is None:
            return len(text), has_clause, head, ""
        place = mark.end()
        if mark[0] in "([":
            depth += 1
        elif mark[0] in ")]":
            depth -= 1
        elif depth == 0 and mark[0] == "{":
            place = end_of(text, mark.start())
            front = text[last : mark.start()]
            head += front
            if CLAUSE.search(front):
                has_clause = True
            elif not GHOST.search(front):
                return place, has_clause, head, text[mark.start() : place]
            last = place
        elif depth == 0:
            return mark.start(), has_clause, head + text[last : mark.start()], ""


def implemented(head):
    """The type of an implementation, which stands behind its parameters."""
    depth = 0
    for mark in re.finditer(r"->|[<>]|\w+", head):
        if mark[0] in "<>":
            depth += 1 if mark[0] == "<" else -1
        elif depth == 0 and mark[0] != "->":
            return mark[0]
    return ""


class Source:
    """A file of a crate, with its functions."""

    def __init__(self, crate, path, text):
        self.crate, self.path, self.text = crate, path, blanked(text)
        self.functions = []
        self.read(0, len(self.text), "", "", False, False)

    def types(self):
        """The public types that the file declares."""
        return TYPE.findall(self.text)

    def read(self, place, end, owner, trait, is_shown, is_test):
        """Reads the items from a place to another."""
        depth = 0
        while place < end:
            mark = MARK.search(self.text, place, end)
            if mark is None:
                return
            place = mark.end()
            if mark[0] in "([{":
                depth += 1
            elif mark[0] in ")]}":
                depth -= 1
            elif depth == 0 and mark[0] != ";":
                place = self.item(mark, owner, trait, is_shown, is_test)

    def item(self, mark, owner, trait, is_shown, is_test):
        """Reads a function, or a block and what stands in it; the place behind it."""
        front = self.text[: mark.start()]
        is_public = bool(PUBLIC.search(front[-80:]))
        kind, _, name = mark[0].partition(" ")
        name = name.strip()
        if kind == "fn":
            end, has_clause, head, body = signature(self.text, mark.end())
            self.functions.append(
                Function(self.crate, self.path, front.count("\n") + 1, name, owner, trait, is_public, is_shown,
                         is_test, has_clause, head, body)
            )
            return end
        start = re.compile(r"[{;]").search(self.text, mark.end())
        if start is None or start[0] == ";":
            return mark.end()
        end = end_of(self.text, start.start())
        inside = (start.end(), end - 1)
        if kind == "trait":
            self.read(*inside, name, name, is_public, is_test)
        elif kind == "impl":
            of, _, type = self.text[mark.end() : start.start()].partition(" for ")
            if type:
                self.read(*inside, implemented(type), implemented(of), False, is_test)
            else:
                self.read(*inside, implemented(of), "", False, is_test)
        elif kind == "mod":
            self.read(*inside, owner, trait, is_shown, is_test or bool(TESTS.search(front[-80:])))
        return end


def crates(root):
    """The crates of the repository, by their names."""
    return sorted(os.listdir(os.path.join(root, "crates")))


def is_library(root, crate):
    return os.path.isfile(os.path.join(root, "crates", crate, "src", "lib.rt"))


def sources(root, crate):
    """The files of a crate, read."""
    for at, folders, names in os.walk(os.path.join(root, "crates", crate, "src")):
        folders.sort()
        for name in sorted(it for it in names if it.endswith(".rt")):
            with open(os.path.join(at, name), encoding="utf-8") as file:
                yield Source(crate, os.path.join(os.path.relpath(at, root), name), file.read())
