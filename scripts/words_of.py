#!/usr/bin/env python3
"""usage: words_of.py USAGE WORDS..

Prints how blazes is called where the words ask for nothing: the words that the command takes, by the usage
line, or where there is no such command the nearest ones and all. It calls no program.

Exit status: 0.
"""
import difflib
import sys


def commands_of(usage):
    """Each command of a usage line, with the words that it takes."""
    for part in usage.removeprefix("usage: blazes ").split(" | "):
        names, _, words = part.partition(" ")
        yield from ((name, words) for name in names.split("|"))


def told(usage, words):
    """How the command is called that the words name, or which one may be meant."""
    commands = dict(commands_of(usage))
    name = words[0] if words else ""
    if name in commands:
        return [f"write it so: blazes {name} {commands[name]}"]
    shown = name if name and name.isascii() and name.isprintable() else ascii(name)
    near = difflib.get_close_matches(name, commands, 1)
    return [f"there is no command {shown}; the nearest one: blazes {it} {commands[it]}" for it in near] or [
        f"there is no command {shown}; there are {', '.join(commands)}"]


def main():
    print(*told(sys.argv[1], sys.argv[2:]), sep="\n")
    return 0


if __name__ == "__main__":
    sys.exit(main())
