"""Calls blazes: the program that the variable BLAZES names, else ./blazes of this repository.

The scripts have one rule for their exit status: 0 where the answer is yes, 1 where it is no, and 2
where there is none, since the words are wrong or the program refused what it was given. What the
program said then stands on standard error. With `--help` each prints the page at its head.
"""
import atexit
import os
import signal
import subprocess
import sys

import modules_here

YES, NO, NO_ANSWER = 0, 1, 2

# The statuses of a program that was refused a file, of one that has its report, but some of what was sent
# is left or held, and of a build that failed.
UNREAD, INCOMPLETE, FAILED = 3, 5, 9

# The status of what ends since nobody reads on what it prints, as a shell has it.
UNREAD_TEXT = 128 + signal.SIGPIPE

ROOT = os.path.dirname(os.path.dirname(os.path.realpath(__file__)))
SCRIPT = os.path.join(ROOT, "blazes")
PROGRAM = os.environ.get("BLAZES") or SCRIPT


def end_unread(kind, fault, trace):
    """Ends a script without a word where nobody reads on what it prints, as behind `| head`."""
    if kind is BrokenPipeError:
        os._exit(UNREAD_TEXT)
    sys.__excepthook__(kind, fault, trace)


@atexit.register
def print_rest():
    """Prints what waits, before Python does it, which says more where nobody reads on."""
    try:
        if sys.stdout:
            sys.stdout.flush()
    except BrokenPipeError:
        os._exit(UNREAD_TEXT)


# It is called when all that was opened for the work is closed again.
sys.excepthook = end_unread


def end(why):
    """Ends the script without an answer."""
    sys.stdout.flush()
    sys.stderr.buffer.write(why if isinstance(why, bytes) else why.encode() + b"\n")
    sys.exit(NO_ANSWER)


def help_of(page):
    """Prints the page at the head of a script and ends it, where that is asked for."""
    if sys.argv[1:] in (["--help"], ["-h"]):
        print(page.rstrip())
        sys.exit(YES)


def given(page, least, most):
    """The words of the call, from `least` to `most` of them: else the first line of the script's page is its answer."""
    help_of(page)
    words = sys.argv[1:]
    if not least <= len(words) <= most:
        end(page.split("\n")[0])
    return words


def advice(text, words):
    """Where a module lies that the program couldn't read; ./blazes says that by itself."""
    if PROGRAM != SCRIPT and text.startswith(b"cannot read "):
        return "".join(f"blazes: {it}\n" for it in modules_here.advice(words[1:2])).encode()
    return b""


def checked(text, status, words, incomplete):
    """The text, where the status says that it is a report. It may be incomplete where that is said."""
    if status != 0 and not (incomplete and status == INCOMPLETE):
        end(text + advice(text, words) or f"{PROGRAM}: it ended with the status {status}")
    return text


def answer(*words):
    """What the program writes for these words, and its status."""
    try:
        done = subprocess.run([PROGRAM, *words], stdout=subprocess.PIPE)
    except OSError as fault:
        end(f"{PROGRAM}: {fault.strerror or fault}")
    return done.stdout, done.returncode


def report(*words, incomplete=False):
    """What the program writes for these words, where that is a report."""
    return checked(*answer(*words), words, incomplete)


def found_by(script):
    """The program that a script beside this one finds, and the status of that."""
    done = subprocess.run([os.path.join(ROOT, "scripts", script)], stdout=subprocess.PIPE)
    return done.stdout.decode().strip(), done.returncode


def proved():
    """Where the program lies that ./prove made; nothing where there is none."""
    return found_by("proved")[0]


def unproved():
    """Where the unproved program lies that is kept; it is built now where none is. Nothing where none can be kept."""
    for script in ("kept", "keep"):
        program, status = found_by(script)
        if program:
            print(f"{os.path.basename(sys.argv[0])}: unproved runs", file=sys.stderr, flush=True)
            return program
    if status == FAILED:
        sys.exit(NO_ANSWER)
    return ""


def built(also_unproved=False):
    """The program that BLAZES names, else the one that ./prove made, for a script that needs one of them. It may
    be an unproved one that is kept where that is said."""
    program = os.environ.get("BLAZES") or proved() or (also_unproved and unproved())
    if not program:
        script = os.path.basename(sys.argv[0])
        end(f"{script}: there is no build: run ./prove, or name a program by the variable BLAZES")
    return os.path.abspath(program)


def is_started(program):
    """Whether a script starts the program, as it does one that is kept, so that nothing reaches it but its words."""
    with open(program, "rb") as file:
        return file.read(2) == b"#!"


class Calls:
    """Many calls, one after the other: a later one may have words and files that an earlier one gave."""

    def __enter__(self):
        return self

    def __exit__(self, *_):
        pass

    def answer(self, *words):
        return answer(*words)

    def report(self, *words, incomplete=False):
        return checked(*self.answer(*words), words, incomplete)


def many_calls():
    """Calls of one program, which is looked for, and where there is none built unproved, before the first."""
    global PROGRAM
    if not os.environ.get("BLAZES"):
        PROGRAM = proved() or unproved() or SCRIPT
    return Calls()


def read_topology(name):
    """The table of a topology's file, which the program has read before."""
    import tomllib

    try:
        with open(name, "rb") as file:
            return tomllib.load(file)
    except (OSError, ValueError) as fault:
        end(f"{name}: {fault}")
