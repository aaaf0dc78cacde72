"""Labels, modes, notes and rules in words, for those who don't know them by heart."""
import re

MEANING = {
    "Seal": "the same in every run, and a seal tells when a partition is whole",
    "Async": "the same in every run and in all replicas",
    "Run": "the replicas of one run agree, and another run may give something else",
    "Inst": "replicas may disagree in what they put out",
    "Diverge": "replicas may disagree for good",
}

MODES = {
    "free": "it takes each row as it comes",
    "pass": "it takes each row as it comes, and hands seals on",
    "seal": "it waits until all rows of a partition are there",
    "order": "it takes all rows in the one order of a sequencer",
}

NOTES = {
    "CR": "the order makes no difference, and nothing is kept",
    "CW": "the order makes no difference, and the rows are kept",
    "OR": "the order makes a difference, and nothing is kept",
    "OW": "the order makes a difference, and the rows are kept",
}

RULES = {
    "rule 1": "a row is answered by what is known when it comes, and isn't kept",
    "rule 2": "rows come in any order, and what goes out depends on the order in which they fill the tables",
    "rule 3": "replicas further up answer differently, and here the answers are kept",
    "rule 4": "what goes out needs more than the partition that the seal closes, or nobody waits for it",
    "rule 5": "the seal helps here, and another path spoils it",
    "ordered": "a sequencer gives all replicas one order, and another run may have another",
}

HELPS = {
    "rule 1": "keep what asks in a table, and answer out of two tables; or wait until what it asks for is whole",
    "rule 2": "seal the source and plan; or hand on all and choose later; or one replica; or a sequencer",
    "rule 3": "mend the stream that comes in, further up",
    "rule 4": "seal by attributes of the gate; or compare the key in each join and group; or mode seal in place of pass",
    "rule 5": "look at the other streams into this output",
    "ordered": "set mode seal by hand and derive: the uses say what is in the way",
}


def kind(label):
    """A label without its key."""
    return label.split("[")[0]


def mode_words(mode):
    return MODES[kind(mode)]


def note_words(note):
    """What a note says, with its gate."""
    found = re.match(r"(\w+)(?:\[(.*)\])?$", note)
    if found[2] is None:
        return NOTES[found[1]]
    among = f"among rows with the same {found[2].replace(', ', ' and ')}" if found[2] else "among all rows"
    return NOTES[found[1]].replace("a difference", f"a difference {among}")
